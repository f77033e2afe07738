/* A terminal for a program that is tried: what is called of the C library, which this toolchain has no headers of, and how one is opened. */
typedef long ssize;
int open(const char *path, int flags, ...);
int close(int descriptor);
int dup2(int from, int to);
int execv(const char *path, char *const words[]);
int fork(void);
int waitpid(int child, int *status, int options);
int posix_openpt(int flags);
int grantpt(int descriptor);
int unlockpt(int descriptor);
char *ptsname(int descriptor);
ssize read(int descriptor, void *bytes, unsigned long count);
ssize write(int descriptor, const void *bytes, unsigned long count);
void _exit(int status) __attribute__((noreturn));

/* open for reading and writing, and without taking the terminal for this process's own */
#define BOTH_WAYS 2
#define NOT_OURS 0400

/* Opens a terminal and its other side: 0, or the exit status that says what failed. */
static int opened(int *terminal, int *side)
{
    if ((*terminal = posix_openpt(BOTH_WAYS | NOT_OURS)) < 0 || grantpt(*terminal) || unlockpt(*terminal))
        return 101;
    return (*side = open(ptsname(*terminal), BOTH_WAYS | NOT_OURS)) < 0 ? 102 : 0;
}

/* Starts a program with this side of a terminal as one of its descriptors. */
static int started(char **words, int descriptor, int terminal, int side)
{
    int child = fork();

    if (child == 0) {
        dup2(side, descriptor);
        close(side);
        close(terminal);
        execv(words[0], words);
        _exit(103);
    }
    return child;
}

/* Waits for a program: its exit status, or one that says what failed. */
static int ended(int child)
{
    int status = 0;

    if (child < 0 || waitpid(child, &status, 0) < 0)
        return 104;
    return status & 0x7f ? 105 : status >> 8 & 0xff;
}
