/* Has the syncs of a program do nothing, and say that they did: all of them, or but every N-th, where the environment has LYING=N.
   Preloaded, it stands before the C library's functions. It needs no header, so that the kit's own clang will do. */
extern char *getenv(const char *);
extern long atol(const char *);
extern long syscall(long, ...);
enum { FSYNC = 74, FDATASYNC = 75 };
static long count;
static int synced(long call, int file) {
    const char *lying = getenv("LYING");
    long each = lying ? atol(lying) : 0;
    return each && __atomic_add_fetch(&count, 1, __ATOMIC_SEQ_CST) % each == 0 ? syscall(call, file) : 0;
}
int fsync(int file) { return synced(FSYNC, file); }
int fdatasync(int file) { return synced(FDATASYNC, file); }
