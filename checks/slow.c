/* Makes the syncs of a file slow, where the environment has SLOW_SYNC=MS, or has the N-th and all later ones never end,
   where it has HUNG_SYNC=N; and so its reads, by SLOW_READ and HUNG_READ, and the syncs of a start (`fsync`), by SLOW_FSYNC and
   HUNG_FSYNC. With SLOW_SYNC_AT a sync is slow only once the file that it names is there, and once the one that HUNG_SYNC_AT names is
   there no sync ends. Once the one that HUNG_RECV or HUNG_ACCEPT names is
   there, a read of a peer, or the next accept, never ends: of a socket that doesn't wait, as those of the workers and of the
   thread that accepts, and not those of the pages. Where it has HUNG_EXIT, the program never ends by itself. Preloaded, it stands before the C library's functions. It needs no header, so that the kit's own clang will do. */
extern char *getenv(const char *);
extern long atol(const char *);
extern long syscall(long, ...);
extern int usleep(unsigned);
extern int pause(void);
extern int access(const char *, int);
enum { PREAD = 17, RECVFROM = 45, FCNTL = 72, FSYNC = 74, FDATASYNC = 75, ACCEPT4 = 288, EXIT_GROUP = 231, GET_FLAGS = 3, NONBLOCK = 04000 };
struct calls {
    long slow, hung, count;
};
static struct calls syncs, reads, fsyncs;
static long number(const char *name) {
    const char *is = getenv(name);
    return is ? atol(is) : 0;
}
__attribute__((constructor)) static void begin(void) {
    syncs = (struct calls){number("SLOW_SYNC"), number("HUNG_SYNC"), 0};
    reads = (struct calls){number("SLOW_READ"), number("HUNG_READ"), 0};
    fsyncs = (struct calls){number("SLOW_FSYNC"), number("HUNG_FSYNC"), 0};
}
void _exit(int status) {
    while (getenv("HUNG_EXIT")) pause();
    syscall(EXIT_GROUP, status);
    __builtin_unreachable();
}
static void wait_in(struct calls *it) {
    it->count++;
    while (it->hung && it->count >= it->hung) pause();
    if (it->slow) usleep(it->slow * 1000);
}
static int waits_for(const char *name) {
    const char *file = getenv(name);
    return file && access(file, 0) != 0;
}
static void hang(const char *name) {
    const char *file = getenv(name);
    while (file && access(file, 0) == 0) pause();
}
static void hang_at(const char *name, int socket) {
    if (syscall(FCNTL, socket, GET_FLAGS) & NONBLOCK) hang(name);
}
int fdatasync(int file) {
    hang("HUNG_SYNC_AT");
    if (!waits_for("SLOW_SYNC_AT")) wait_in(&syncs);
    return syscall(FDATASYNC, file);
}
int fsync(int file) {
    wait_in(&fsyncs);
    return syscall(FSYNC, file);
}
long pread(int file, void *to, unsigned long bytes, long at) {
    wait_in(&reads);
    return syscall(PREAD, file, to, bytes, at);
}
long recv(int socket, void *to, unsigned long bytes, int flags) {
    hang_at("HUNG_RECV", socket);
    return syscall(RECVFROM, socket, to, bytes, flags, 0, 0);
}
int accept4(int socket, void *address, void *length, int flags) {
    hang_at("HUNG_ACCEPT", socket);
    return syscall(ACCEPT4, socket, address, length, flags);
}
