// limit_serve PORT: the least that answers the calls of one connection of bench/load, whatever the rules are: each frame is found and summed,
// its id and account are found, and an AR and an AS are written of templates with the clock's time. It ends with its first connection that
// says something.
#define _GNU_SOURCE // memmem
#include "limit.h"

#include <arpa/inet.h>
#include <netinet/tcp.h>
#include <stdio.h>
#include <stdlib.h>
#include <time.h>
#include <unistd.h>

enum { READ = 4096, MOST_HELD = 1 << 17, MOST_OUT = 1 << 20, MOST_ID = 40 };
static unsigned char held[MOST_HELD], out[MOST_OUT];
static size_t waiting, written;
static unsigned number, entry;
static char now[96];

static unsigned char *put(unsigned char *to, const void *text, size_t length) {
  memcpy(to, text, length);
  return to + length;
}
#define PUT(to, text) put(to, text, sizeof text - 1)

static unsigned char *put_number(unsigned char *to, unsigned value) {
  unsigned digits = 1;
  for (unsigned rest = value; rest >= 10; rest /= 10)
    digits++;
  for (unsigned i = digits; i--; value /= 10)
    to[i] = '0' + value % 10;
  return to + digits;
}

static void send_message(const char *kind, const unsigned char *body, size_t length) {
  unsigned char header[96], *to = PUT(header, "35=");
  to = put(to, kind, strlen(kind));
  to = put_number(PUT(to, "\00149=HSE\00156=HSE\00134="), ++number);
  to = put(PUT(to, "\00152="), now, 21);
  *to++ = SOH;
  unsigned char *frame = out + written;
  const size_t of_header = to - header;
  to = put_number(PUT(frame, "8=FIXT.1.1\0019="), of_header + length);
  *to++ = SOH;
  to = put(put(to, header, of_header), body, length);
  written = put_sum(frame, to) - out;
}

static void call(struct frame it) { // a trade: new, the last one again, or one of an account that isn't there
  static unsigned char last[MOST_ID];
  static size_t of_last;
  const unsigned char *end = it.body + it.length;
  const unsigned char *id = (const unsigned char *)memmem(it.body, it.length, "\001571=", 5) + 5;
  const size_t of_id = (const unsigned char *)memchr(id, SOH, end - id) - id;
  const unsigned char *account = (const unsigned char *)memmem(end - 12, 12, "\0011=", 3) + 3;
  unsigned char body[256], *to = put(PUT(body, "571="), id, of_id);
  if (account[0] == 'N') {
    to = PUT(to, "\001939=1\00158=2 unknown account\001");
    return send_message("AR", body, to - body);
  }
  const int again = of_id == of_last && memcmp(last, id, of_id) == 0;
  if (!again) {
    entry++;
    memcpy(last, id, of_last = of_id);
  }
  to = put_number(PUT(to, "\001939=0\00158=entry "), entry);
  *to++ = SOH;
  send_message("AR", body, to - body);
  if (again)
    return;
  to = put_number(PUT(body, "755="), entry);
  to = put_number(PUT(to, "\00171=0\001794=9\00187=0\00172="), entry);
  to = put(PUT(to, ".0\00155=ESZ6\00154=1\00153=100\00175="), now, 8);
  *to++ = SOH;
  send_message("AS", body, to - body);
}

static void take(struct frame it) {
  static const char LOGON[] = "98=0\001108=60\0011137=9\001";
  if (it.body[3] == 'A' && it.body[4] == SOH)
    send_message("A", (const unsigned char *)LOGON, sizeof LOGON - 1);
  else if (it.body[3] == '5')
    send_message("5", NULL, 0);
  else
    call(it);
}

static void tell_time(void) {
  struct timespec clock;
  struct tm day;
  clock_gettime(CLOCK_REALTIME, &clock);
  gmtime_r(&clock.tv_sec, &day);
  snprintf(now, sizeof now, "%04d%02d%02d-%02d:%02d:%02d.%03ld", day.tm_year + 1900, day.tm_mon + 1, day.tm_mday, day.tm_hour, day.tm_min, day.tm_sec,
           clock.tv_nsec / 1000000);
}

static int serve(int peer) { // whether it said something
  ssize_t more;
  int said = 0;
  while ((more = read(peer, held + waiting, READ)) > 0) {
    said = 1;
    tell_time();
    waiting += more;
    size_t at = written = 0;
    while (waiting - at > OPENING + TRAILER) {
      const struct frame it = frame_at(held + at, waiting - at);
      if (!it.whole)
        break;
      if (!sum_is_right(held + at, it))
        exit(1);
      take(it);
      at += it.whole;
    }
    memmove(held, held + at, waiting -= at);
    if (written && write(peer, out, written) < 0)
      return 1;
  }
  return said;
}

int main(int count, char **words) {
  if (count != 2)
    return fprintf(stderr, "limit_serve PORT\n"), 2;
  const int listener = socket(AF_INET, SOCK_STREAM, 0), yes = 1;
  struct sockaddr_in address = {.sin_family = AF_INET, .sin_port = htons(atoi(words[1])), .sin_addr.s_addr = htonl(INADDR_LOOPBACK)};
  setsockopt(listener, SOL_SOCKET, SO_REUSEADDR, &yes, sizeof yes);
  if (bind(listener, (const struct sockaddr *)&address, sizeof address) || listen(listener, 8))
    return perror("limit_serve"), 1;
  for (int peer, said = 0; !said;) {
    if ((peer = accept(listener, NULL, NULL)) < 0)
      return perror("limit_serve"), 1;
    setsockopt(peer, IPPROTO_TCP, TCP_NODELAY, &yes, sizeof yes);
    said = serve(peer);
    close(peer);
  }
  return 0;
}
