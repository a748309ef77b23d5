/* Fails the N-th call that a program makes of a file's bytes, where the environment has FAILED_CALL=N: with the error of the number FAILED_BY,
   or where that is missing the program is killed there. A write that fails has written the first half of its bytes. Preloaded, it stands
   before the C library's `pread`, `pwrite`, `ftruncate`, `fdatasync` and `fsync`. With TOLD_CALLS=1 it tells on standard error at the end how
   many there were, and how many of them were `fsync`, also of a program that ends by `_exit`. It needs no header, so that the kit's own clang will do. */
typedef unsigned long size;
extern char *getenv(const char *);
extern long atol(const char *);
extern int dprintf(int, const char *, ...);
extern long syscall(long, ...);
extern int *__errno_location(void);
enum { PREAD = 17, PWRITE = 18, GETPID = 39, KILL = 62, FSYNC = 74, FDATASYNC = 75, FTRUNCATE = 77, EXIT_GROUP = 231, SIGKILL = 9 };
static long nth, error, calls, fsyncs;
__attribute__((constructor)) static void begin(void) {
    const char *call = getenv("FAILED_CALL"), *by = getenv("FAILED_BY");
    nth = call ? atol(call) : 0;
    error = by ? atol(by) : 0;
}
__attribute__((destructor)) static void end(void) {
    if (getenv("TOLD_CALLS")) dprintf(2, "calls: %ld, of them fsync: %ld\n", calls, fsyncs);
}
static int is_failed(void) { return __atomic_add_fetch(&calls, 1, __ATOMIC_SEQ_CST) == nth; }
static long fail(void) {
    if (!error) syscall(KILL, syscall(GETPID), SIGKILL);
    *__errno_location() = error;
    return -1;
}
long pread(int file, void *to, size bytes, long at) { return is_failed() ? fail() : syscall(PREAD, file, to, bytes, at); }
long pwrite(int file, const void *from, size bytes, long at) {
    if (!is_failed()) return syscall(PWRITE, file, from, bytes, at);
    syscall(PWRITE, file, from, bytes / 2, at);
    return fail();
}
int ftruncate(int file, long bytes) { return is_failed() ? fail() : syscall(FTRUNCATE, file, bytes); }
int fdatasync(int file) { return is_failed() ? fail() : syscall(FDATASYNC, file); }
int fsync(int file) {
    __atomic_add_fetch(&fsyncs, 1, __ATOMIC_SEQ_CST);
    return is_failed() ? fail() : syscall(FSYNC, file);
}
__attribute__((noreturn)) void _exit(int status) {
    end();
    for (;;) syscall(EXIT_GROUP, status);
}
