/* Preloaded, it has a clock jump. The one that only rises goes ahead once the file that JUMP names is there: by so many seconds as
   JUMP_BY says, and with JUMP_ALL the wall clock with it. That goes by as many as the file that SET names says, with a sign, while
   it is there. It needs no header. */
struct moment {
    long seconds, nanoseconds;
};
enum { READ = 0, OPEN = 2, CLOSE = 3, CLOCK_GETTIME = 228 };

char *getenv(const char *name);
int access(const char *path, int mode);
long atol(const char *text);

static long call(long number, long a, const void *b, long c) {
    long answer = number;
    __asm__ volatile("syscall" : "+a"(answer) : "D"(a), "S"(b), "d"(c) : "rcx", "r11", "memory");
    return answer;
}

static long written(const char *path) {
    char text[32] = "";
    long file = call(OPEN, (long)path, 0, 0);
    if (file < 0) return 0;
    call(READ, file, text, sizeof text - 1);
    call(CLOSE, file, 0, 0);
    return atol(text);
}

int clock_gettime(int clock, struct moment *to) {
    long answer = call(CLOCK_GETTIME, clock, to, 0);
    const char *jump = getenv("JUMP"), *by = getenv("JUMP_BY"), *set = getenv("SET");
    int jumps = clock == 1 || (clock == 0 && getenv("JUMP_ALL"));
    if (!answer && jumps && jump && by && access(jump, 0) == 0) to->seconds += atol(by);
    if (!answer && clock == 0 && set) to->seconds += written(set);
    return answer ? -1 : 0;
}
