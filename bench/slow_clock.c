/* Preloaded, it has both clocks go 64 times slower from their first reading on, as a program does under callgrind: what ends after a
   millisecond has then as many calls in it as without callgrind. It needs no header. */
struct moment {
    long seconds, nanoseconds;
};
enum { CLOCKS = 2, CLOCK_GETTIME = 228, SLOWER = 6, SECOND = 1000000000 };
static long first[CLOCKS];

static long call(long number, long a, const void *b) {
    long answer = number;
    __asm__ volatile("syscall" : "+a"(answer) : "D"(a), "S"(b) : "rcx", "r11", "memory");
    return answer;
}

int clock_gettime(int clock, struct moment *to) {
    if (call(CLOCK_GETTIME, clock, to)) return -1;
    if (clock < 0 || clock >= CLOCKS) return 0;
    unsigned long now = to->seconds * SECOND + to->nanoseconds;
    if (!first[clock]) first[clock] = now;
    now = first[clock] + ((now - first[clock]) >> SLOWER);
    to->seconds = now / SECOND;
    to->nanoseconds = now % SECOND;
    return 0;
}
