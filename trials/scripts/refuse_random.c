/* Refuses a program its random bytes. */
int getentropy(void *bytes, unsigned long count) {
    (void)bytes;
    (void)count;
    return -1;
}
