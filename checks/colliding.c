/* Ids that fall together, for `checks/abuse`, of nine bytes each: under a hash without a key, as a book had before it
   got one, or under the key that everyone knows. The hashes of a list have the same lowest 16 bits, so its ids share a
   bucket among 65,536 and fewer. It needs no header, so that the kit's own clang will do. */
typedef unsigned long long word;
typedef unsigned __int128 wide;
static const word MULTIPLIER = 0x9e3779b97f4a7c15;

/* The name of a firm of three bytes. */
static word name(const unsigned char *firm) { return firm[0] | (word)firm[1] << 8 | (word)firm[2] << 16; }

static word folded(word a, word b) {
    wide product = (wide)a * b;
    return (word)product ^ (word)(product >> 64);
}

/* The hash without a key of the firm and the first eight bytes of an id. */
static word unkeyed(word prefix, const unsigned char *firm) {
    word begun = folded(0x243f6a8885a308d3 ^ name(firm), MULTIPLIER ^ 6);
    return folded(begun ^ prefix, MULTIPLIER ^ 16);
}

static word turned(word x, int by) { return x << by | x >> (64 - by); }

static void sip_round(word *v) {
    v[0] += v[1], v[2] += v[3];
    v[1] = turned(v[1], 13) ^ v[0], v[3] = turned(v[3], 16) ^ v[2];
    v[0] = turned(v[0], 32), v[2] += v[1], v[0] += v[3];
    v[1] = turned(v[1], 17) ^ v[2], v[3] = turned(v[3], 21) ^ v[0];
    v[2] = turned(v[2], 32);
}

static void take(word *v, word it) {
    v[3] ^= it;
    sip_round(v);
    v[0] ^= it;
}

/* SipHash-1-3 under the key 0: the eight bytes fill a word, nothing is left for the next, and the last has the name of
   the firm and the length of the id. */
static word keyed(word prefix, const unsigned char *firm) {
    word v[4] = {0x736f6d6570736575, 0x646f72616e646f6d, 0x6c7967656e657261, 0x7465646279746573};
    take(v, prefix);
    take(v, 0);
    take(v, name(firm) | 9ULL << 56);
    v[2] ^= 0xff;
    for (int i = 0; i < 3; i++) sip_round(v);
    return v[0] ^ v[1] ^ v[2] ^ v[3];
}

static int is_digit_or_letter(word c) {
    return (c >= '0' && c <= '9') || (c >= 'A' && c <= 'Z') || (c >= 'a' && c <= 'z');
}

/* Writes so many ids of the firm, one after the other. */
void colliding(int is_keyed, const unsigned char *firm, int count, unsigned char *out) {
    static const char DIGITS[] = "0123456789ABCDEFGHIJKLMNOPQRSTUVWXYZ";
    for (word number = 0; count > 0; number++) {
        word prefix = 0, rest = number;
        for (int i = 0; i < 8; i++, rest /= 36) prefix |= (word)DIGITS[rest % 36] << 8 * i;
        /* The last byte stands beside the hash of those before it: this one leaves none of the 16 bits. */
        word last = (is_keyed ? keyed(prefix, firm) : unkeyed(prefix, firm)) >> 32 & 0xffff;
        if (!is_digit_or_letter(last)) continue;
        for (int i = 0; i < 8; i++) *out++ = prefix >> 8 * i;
        *out++ = last;
        count--;
    }
}
