"""The firms of a house file, as `door` and `statements-door` have them: each is the name of a certificate."""
import os
import re
import sys


def firms_of(house):
    """The firms of a house file, the clearing house first."""
    with open(house, encoding="ascii") as lines:
        words = [line.rstrip("\n").split(" ") for line in lines]
    firms = [word[1] for word in words if word[0] in ("HOUSE", "FIRM") and len(word) == 2]
    for firm in firms:
        if not re.fullmatch(r"[!-~]{1,16}", firm) or firm.startswith("#"):
            sys.exit(f"{os.path.basename(sys.argv[0])}: {firm!r} can't be the name of a certificate in HAProxy's list")
    return firms
