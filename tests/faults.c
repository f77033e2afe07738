/* Makes reads or writes of a program fail that it is loaded into before the C library (LD_PRELOAD). Part of no program:
   tests/program/faults.sh uses it.
   FAULT_CALL (read or write) and FAULT_DESCRIPTOR say which calls are meant; one that asks for no byte isn't.
   FAULT_PIECE: each of them passes at most so many bytes, 0 or none: as many as it is asked for.
   FAULT_KIND: what happens to the one whose number FAULT_NUMBER gives, from 1 on, and where FAULT_ALL is a word to each later one:
   `fail` is the system's error 5 (EIO), `interrupted` its error 4 (EINTR), and `none` is an answer of no byte, without an error.
   A byte on descriptor 9 tells that the numbered call came. */
extern long syscall(long number, ...);
extern char *getenv(const char *name);
extern int atoi(const char *text);
extern int *__errno_location(void);

enum { READ, WRITE }; /* the numbers of the system's calls (x86-64) */

struct part {
    const void *bytes;
    unsigned long count;
};

static int calls;

static int number(const char *name) {
    const char *text = getenv(name);
    return text ? atoi(text) : 0;
}

/* Whether calls of this kind (`r` or `w`) on a descriptor are meant. */
static int meant(char kind, int descriptor) {
    const char *call = getenv("FAULT_CALL");
    return call && call[0] == kind && number("FAULT_DESCRIPTOR") == descriptor;
}

/* What happens to the present call: 0 where it is passed on, else the first letter of its kind. */
static char fault(void) {
    const char *kind = getenv("FAULT_KIND"), *all = getenv("FAULT_ALL");
    int at = number("FAULT_NUMBER");
    calls++;
    if (calls == at)
        syscall(WRITE, 9, "!", 1L);
    return kind && (calls == at || (all && all[0] && calls > at)) ? kind[0] : 0;
}

/* The answer in place of a call. */
static long answer(char kind) {
    if (kind == 'n')
        return 0;
    *__errno_location() = kind == 'i' ? 4 : 5;
    return -1;
}

/* How many bytes a call passes. */
static unsigned long piece(unsigned long count) {
    unsigned long most = number("FAULT_PIECE");
    return most && count > most ? most : count;
}

long read(int descriptor, void *bytes, unsigned long count) {
    char kind;
    if (!count || !meant('r', descriptor))
        return syscall(READ, descriptor, bytes, count);
    kind = fault();
    return kind ? answer(kind) : syscall(READ, descriptor, bytes, piece(count));
}

long write(int descriptor, const void *bytes, unsigned long count) {
    char kind;
    if (!count || !meant('w', descriptor))
        return syscall(WRITE, descriptor, bytes, count);
    kind = fault();
    return kind ? answer(kind) : syscall(WRITE, descriptor, bytes, piece(count));
}

/* (the C library has both under these names, too) */
long __read(int descriptor, void *bytes, unsigned long count) { return read(descriptor, bytes, count); }
long __write(int descriptor, const void *bytes, unsigned long count) { return write(descriptor, bytes, count); }

/* (a write of several parts may pass on the first alone that has a byte) */
long writev(int descriptor, const struct part *parts, int count) {
    int i;
    for (i = 0; i < count; i++)
        if (parts[i].count)
            return write(descriptor, parts[i].bytes, parts[i].count);
    return 0;
}
