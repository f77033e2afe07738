/* Interrupts or fails reads and writes of a program that it is loaded into before the C library (LD_PRELOAD). INTERRUPTED: so many
   calls that read or write are interrupted before each one that is made. SHORT: no call takes more bytes than that. FAILED: the
   read of that number, from 1 on, of a file other than the standard ones fails. A program must have no more than one open at a time.
   Part of no program: tests/program.sh uses it. */
typedef long ssize_t;
typedef unsigned long size_t;
extern ssize_t __read(int file, void *bytes, size_t count);
extern ssize_t __write(int file, const void *bytes, size_t count);
extern int *__errno_location(void);
extern char *getenv(const char *name);
extern int atoi(const char *text);

static int calls, reads;

static int setting(const char *name) {
    const char *text = getenv(name);
    return text ? atoi(text) : 0;
}

static ssize_t fails(int error) {
    *__errno_location() = error;
    return -1;
}

static int interrupted(void) {
    return setting("INTERRUPTED") && calls++ % (setting("INTERRUPTED") + 1) < setting("INTERRUPTED");
}

static size_t at_most(size_t count) {
    size_t most = (size_t)setting("SHORT");
    return most && count > most ? most : count;
}

ssize_t read(int file, void *bytes, size_t count) {
    if (interrupted())
        return fails(4); /* EINTR */
    if (file > 2 && ++reads == setting("FAILED"))
        return fails(5); /* EIO */
    return __read(file, bytes, at_most(count));
}

ssize_t write(int file, const void *bytes, size_t count) {
    if (interrupted())
        return fails(4);
    return __write(file, bytes, at_most(count));
}
