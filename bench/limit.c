// limit copy|frames|fields < FRAMES > ANSWERS: the least that the bytes of a batch cost, whatever its rules are. It reads up to 64 kB at a time,
// and writes once for each read, as `allocd batch` does.
//
// copy: each byte is copied, and an answer of 93 bytes is written for each 134.
// frames: each frame is found by its length and summed, and is answered from a template, with a number and a sum. One that is garbled, and a
// Heartbeat, get no answer.
// fields: beside that the first value of each tag that the profile reads is found.
#include "limit.h"

#include <stdio.h>
#include <unistd.h>

enum { READ = 1 << 16, SPARE = 64, MOST_OUT = 1 << 21, TAGS = 22, KNOWN = 8192 };
static const char TEMPLATE[] = "8=FIXT.1.1\0019=74\00135=AR\00149=HSE\00156=HSE\00134=0000000\00152=19700101-00:00:00.000\001"
                               "571=T1\001939=0\00158=entry 1\001";
enum { ANSWER = sizeof TEMPLATE - 1, NUMBER = 36, DIGITS = 7 };
static const unsigned short tags[TAGS] = {35, 49, 56, 34, 52, 43, 571, 55, 32, 552, 54, 453, 1, 70, 71, 626, 72, 78, 5001, 5002, 5003, 5004};
static unsigned char held[READ + SPARE], came[READ], out[MOST_OUT], slot_of[KNOWN];
static size_t waiting, written;
static uint64_t number, looked;

static void answer(void) {
  unsigned char *to = out + written;
  memcpy(to, TEMPLATE, ANSWER);
  uint64_t rest = ++number;
  for (int i = DIGITS - 1; i >= 0 && rest; i--, rest /= 10)
    to[NUMBER + i] = '0' + rest % 10;
  written = put_sum(to, to + ANSWER) - out;
}

static uint64_t marks(const unsigned char *bytes, size_t length) { // which of up to 64 bytes end a field
  const __m128i soh = _mm_set1_epi8(SOH);
  uint64_t found = 0;
  for (int i = 0; i < 4; i++)
    found |= (uint64_t)(uint32_t)_mm_movemask_epi8(_mm_cmpeq_epi8(_mm_loadu_si128((const __m128i *)(bytes + 16 * i)), soh)) << (16 * i);
  return length < 64 ? found & (((uint64_t)1 << length) - 1) : found;
}

static void look(struct frame it) {
  uint32_t length_of[TAGS + 1] = {0};
  size_t begin = 0;
  for (size_t i = 0; i < it.length; i += 64)
    for (uint64_t found = marks(it.body + i, it.length - i); found; found &= found - 1) {
      const size_t end = i + __builtin_ctzll(found);
      unsigned tag = 0;
      size_t at = begin;
      for (; it.body[at] != '='; at++)
        tag = tag * 10 + it.body[at] - '0';
      const unsigned slot = slot_of[tag % KNOWN];
      if (slot && !length_of[slot])
        length_of[slot] = end - at - 1;
      begin = end + 1;
    }
  looked += length_of[1] + length_of[4];
}

static size_t frames(int fields) { // what is left over
  size_t at = 0;
  while (waiting - at > OPENING + TRAILER) {
    const struct frame it = frame_at(held + at, waiting - at);
    if (!it.whole)
      break;
    if (sum_is_right(held + at, it) && it.body[3] != '0') {
      if (fields)
        look(it);
      answer();
    }
    at += it.whole;
  }
  return at;
}

static size_t copies(void) {
  size_t at = 0;
  for (; at + 134 <= waiting; at += 134, written += 93)
    memcpy(out + written, TEMPLATE, 93);
  return at;
}

int main(int count, char **words) {
  if (count != 2 || !(strcmp(words[1], "copy") == 0 || strcmp(words[1], "frames") == 0 || strcmp(words[1], "fields") == 0))
    return fprintf(stderr, "limit copy|frames|fields < FRAMES > ANSWERS\n"), 2;
  for (unsigned i = 0; i < TAGS; i++)
    slot_of[tags[i]] = i + 1;
  ssize_t more;
  while ((more = read(0, came, READ - waiting)) > 0) {
    memcpy(held + waiting, came, more);
    waiting += more;
    written = 0;
    const size_t done = words[1][0] == 'c' ? copies() : frames(words[1][1] == 'i');
    memmove(held, held + done, waiting -= done);
    if (write(1, out, written) != (ssize_t)written)
      return 1;
  }
  // what was looked at has to be told, or the compiler leaves the look out
  return looked == UINT64_MAX;
}
