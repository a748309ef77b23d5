/* The plain side of bench/journal: appends GROUPS groups of BYTES bytes to a new file, each by one write and one fdatasync, and tells each
   by a line, at once, as `test_journal` does. Last it writes how many microseconds that took. It keeps no promise beyond that: a write that
   a crash cuts off leaves a part of a group, and nothing tells.

     journal FILE GROUPS BYTES */
#define _GNU_SOURCE
#include <fcntl.h>
#include <stdio.h>
#include <stdlib.h>
#include <string.h>
#include <time.h>
#include <unistd.h>

static long microseconds(void) {
    struct timespec now;
    clock_gettime(CLOCK_MONOTONIC, &now);
    return now.tv_sec * 1000000L + now.tv_nsec / 1000;
}

static void fail(const char *what) {
    perror(what);
    exit(1);
}

int main(int count, char **words) {
    if (count != 4) {
        fprintf(stderr, "journal FILE GROUPS BYTES\n");
        return 2;
    }
    long groups = atol(words[2]), bytes = atol(words[3]);
    int file = open(words[1], O_RDWR | O_CREAT | O_EXCL, 0644);
    if (file < 0) fail(words[1]);
    char *group = malloc(bytes);
    if (!group) fail("malloc");
    memset(group, '8', bytes);
    if (fsync(file)) fail("fsync");
    long begun = microseconds();
    for (long i = 0; i < groups; i++) {
        if (pwrite(file, group, bytes, i * bytes) != bytes) fail("pwrite");
        if (fdatasync(file)) fail("fdatasync");
        char told[40];
        int length = snprintf(told, sizeof told, "acknowledged %ld\n", i + 1);
        if (write(1, told, length) != length) fail("write");
    }
    printf("%ld\n", microseconds() - begun);
    return 0;
}
