// What limit.c and limit_serve.c share: frames that are found and summed as cheaply as their bytes allow.
#include <emmintrin.h>
#include <stddef.h>
#include <stdint.h>
#include <string.h>

enum { OPENING = 13, TRAILER = 7, SOH = 1 }; // the trailer is "10=", three digits, SOH

struct frame {
  const unsigned char *body;
  size_t length, whole; // of the body, and of the frame; whole is 0 where no frame is there, or not all of it
};

static inline unsigned sum_of(const unsigned char *bytes, size_t length) { // of at least 16 bytes
  static const unsigned char last[32] = {[16] = 255, 255, 255, 255, 255, 255, 255, 255, 255, 255, 255, 255, 255, 255, 255, 255};
  const __m128i zero = _mm_setzero_si128();
  __m128i sum = zero;
  size_t i = 0;
  for (; i + 16 <= length; i += 16)
    sum = _mm_add_epi64(sum, _mm_sad_epu8(_mm_loadu_si128((const __m128i *)(bytes + i)), zero));
  const __m128i mask = _mm_loadu_si128((const __m128i *)(last + (length - i)));
  const __m128i rest = _mm_and_si128(mask, _mm_loadu_si128((const __m128i *)(bytes + length - 16)));
  sum = _mm_add_epi64(sum, _mm_sad_epu8(rest, zero));
  return (_mm_cvtsi128_si64(sum) + _mm_cvtsi128_si64(_mm_unpackhi_epi64(sum, sum))) & 255;
}

static inline struct frame frame_at(const unsigned char *bytes, size_t held) {
  size_t length = 0, at = OPENING;
  for (; at < held && bytes[at] != SOH; at++)
    length = length * 10 + bytes[at] - '0';
  at++;
  const struct frame found = {bytes + at, length, at + length + TRAILER};
  return found.whole <= held && memcmp(bytes, "8=FIXT.1.1\0019=", OPENING) == 0 ? found : (struct frame){0};
}

static inline int sum_is_right(const unsigned char *bytes, struct frame it) {
  const unsigned char *digits = it.body + it.length + 3;
  return (digits[0] - '0') * 100 + (digits[1] - '0') * 10 + digits[2] - '0' == (int)sum_of(bytes, it.whole - TRAILER);
}

static inline unsigned char *put_sum(unsigned char *frame, unsigned char *end) {
  const unsigned sum = sum_of(frame, end - frame);
  memcpy(end, "10=", 3);
  end[3] = '0' + sum / 100;
  end[4] = '0' + sum / 10 % 10;
  end[5] = '0' + sum % 10;
  end[6] = SOH;
  return end + TRAILER;
}
