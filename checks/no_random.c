/* Preloaded, it has the system give no random bytes to a program. */
int getentropy(void *to, unsigned long count) {
    (void)to, (void)count;
    return -1;
}
