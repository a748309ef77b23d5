/* Preloaded, it has the first FAILED_ACCEPTS calls of accept that a program makes fail, by the error of the number FAILED_BY.
   It stands before the C library's `accept` and `accept4`, and needs no header, so that the kit's own clang will do. */
extern char *getenv(const char *);
extern long atol(const char *);
extern long syscall(long, ...);
extern int *__errno_location(void);
enum { ACCEPT4 = 288 };
static long calls;
int accept4(int fd, void *address, unsigned *length, int flags) {
    const char *times = getenv("FAILED_ACCEPTS"), *by = getenv("FAILED_BY");
    if (times && by && __atomic_add_fetch(&calls, 1, __ATOMIC_SEQ_CST) <= atol(times)) {
        *__errno_location() = atol(by);
        return -1;
    }
    return syscall(ACCEPT4, fd, address, length, flags);
}
int accept(int fd, void *address, unsigned *length) { return accept4(fd, address, length, 0); }
