/* Refuses requests for memory of a program that it is loaded into before the C library (LD_PRELOAD): the one whose number
   REFUSED gives, from 1 on, and where REFUSED_ALL is set each later one too. Where REFUSED_ROOM is a word, each block that is given back from the
   request before it on makes room for one more. Where REQUESTS names a file, how many there were and how many of them were refused is written to it at
   the end. Part of no program: tests/program.sh uses it. */
extern void *__libc_malloc(unsigned long size);
extern void *__libc_calloc(unsigned long count, unsigned long size);
extern void *__libc_realloc(void *old, unsigned long size);
extern void *__libc_memalign(unsigned long alignment, unsigned long size);
extern void __libc_free(void *block);
extern char *getenv(const char *name);
extern int atoi(const char *text);
extern int creat(const char *path, unsigned mode);
extern int dprintf(int file, const char *format, ...);

static int requests, refusals, room;

__attribute__((destructor)) static void tell(void) {
    const char *path = getenv("REQUESTS");
    int made = requests, denied = refusals;
    if (path)
        dprintf(creat(path, 0644), "%d %d\n", made, denied);
}

/* Whether a request of this number is one of those that are refused. */
static int meant(int request) {
    const char *number = getenv("REFUSED");
    return number && (getenv("REFUSED_ALL") ? request >= atoi(number) : request == atoi(number));
}

static int refused(void) {
    if (!meant(++requests))
        return 0;
    if (room > 0) {
        room--;
        return 0;
    }
    refusals++;
    return 1;
}

void free(void *block) {
    const char *makes_room = getenv("REFUSED_ROOM");
    if (block && makes_room && makes_room[0] && meant(requests + 1))
        room++;
    __libc_free(block);
}

void *malloc(unsigned long size) { return refused() ? 0 : __libc_malloc(size); }
void *calloc(unsigned long count, unsigned long size) { return refused() ? 0 : __libc_calloc(count, size); }
void *realloc(void *old, unsigned long size) { return refused() ? 0 : __libc_realloc(old, size); }
void *aligned_alloc(unsigned long alignment, unsigned long size) { return refused() ? 0 : __libc_memalign(alignment, size); }
int posix_memalign(void **made, unsigned long alignment, unsigned long size) {
    void *at = aligned_alloc(alignment, size);
    if (!at)
        return 12; /* ENOMEM */
    *made = at;
    return 0;
}
