/* Refuses one growth of a program: the N-th, where the environment has REFUSED_GROWTH=N; and of each N one, picked by a fixed sequence, where it
   has REFUSED_ONE_IN=N, as long as the file REFUSED_WHILE is there. Preloaded, it stands before the C library's `malloc`
   and `realloc`, through which each growth of a built program goes. With TOLD_GROWTHS=1 it tells on standard error, at the end, how many
   growths there were, how many bytes the largest asked for, and how many were refused; of a program that ends by `_exit` too. It needs no
   header, so that the kit's own clang will do. */
typedef unsigned long size;
extern void *__libc_malloc(size);
extern void *__libc_realloc(void *, size);
extern char *getenv(const char *);
extern long atol(const char *);
extern int access(const char *, int);
extern int dprintf(int, const char *, ...);
extern long syscall(long, ...);
static long nth, growths, refused, one_in, is_on;
static const char *while_there;
static size largest;
__attribute__((constructor)) static void begin(void) {
    const char *growth = getenv("REFUSED_GROWTH");
    nth = growth ? atol(growth) : 0;
    const char *in = getenv("REFUSED_ONE_IN");
    one_in = in ? atol(in) : 0;
    while_there = getenv("REFUSED_WHILE");
}
__attribute__((destructor)) static void end(void) {
    if (getenv("TOLD_GROWTHS")) dprintf(2, "growths: %ld, largest %lu bytes, refused %ld\n", growths, largest, refused);
}
static int is_refused(size bytes) {
    if (bytes > largest) largest = bytes;
    unsigned long growth = __atomic_add_fetch(&growths, 1, __ATOMIC_SEQ_CST);
    if (one_in && while_there && growth % 64 == 0) is_on = access(while_there, 0) == 0;
    unsigned long mixed = (growth ^ growth >> 15) * 0x9e3779b97f4a7c15;
    int is_picked = is_on && (mixed >> 20) % one_in == 0;
    if ((long)growth != nth && !is_picked) return 0;
    refused++;
    return 1;
}
void *malloc(size bytes) { return is_refused(bytes) ? 0 : __libc_malloc(bytes); }
void *realloc(void *old, size bytes) { return is_refused(bytes) ? 0 : __libc_realloc(old, bytes); }
__attribute__((noreturn)) void _exit(int status) {
    end();
    for (;;) syscall(231, status); /* exit_group */
}
