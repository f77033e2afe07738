/* A trial of the built program: it is run on a file, and what it left is read. The C library's functions are declared here, since
   the compiler of the kit has no headers. The clang of the kit compiles all of tests/trials for tests/program/hostile.sh and fuzz.sh. */
typedef unsigned char u8;
typedef unsigned short u16;
typedef unsigned int u32;
typedef unsigned long u64;
typedef signed char i8;
typedef short i16;
typedef int i32;
typedef long i64;

extern int printf(const char *format, ...);
extern int snprintf(char *to, u64 room, const char *format, ...);
extern int fflush(void *stream);
extern int fork(void);
extern int execv(const char *path, char *const words[]);
extern int waitpid(int child, int *status, int options);
extern unsigned alarm(unsigned seconds);
extern int open(const char *path, int flags, ...);
extern long read(int descriptor, void *bytes, u64 count);
extern long write(int descriptor, const void *bytes, u64 count);
extern int close(int descriptor);
extern int dup2(int from, int to);
extern void _exit(int status);
extern void exit(int status);
extern int atoi(const char *text);
extern u64 strlen(const char *text);
extern int strcmp(const char *left, const char *right);
extern int strncmp(const char *left, const char *right, u64 count);
extern char *strchr(const char *text, int byte);
extern char *strstr(const char *text, const char *part);
extern void *memset(void *to, int byte, u64 count);
extern void *memcpy(void *to, const void *from, u64 count);
extern void *memmove(void *to, const void *from, u64 count);
extern int memcmp(const void *left, const void *right, u64 count);
extern long time(long *now);

enum {
    TEXT_ROOM = 8 << 20, /* bytes of one output, and one that no trial reaches */
    MOST_WORDS = 24,
    TRIAL_SECONDS = 30, /* after which a run is taken for one without end */
    HUNG = 1000, /* a status: no answer in time; beyond it: ended by a signal */
};

/* What a run left: its status, output and standard error, each with a zero byte behind it. */
struct outcome {
    int status;
    u64 length, error_length;
    char output[TEXT_ROOM], errors[TEXT_ROOM];
};

/* The command line of the trial, the program first. */
static char *words[MOST_WORDS + 1];
static int word_count;

/* Stops the whole, which is no failure of what is tried. */
static void give_up(const char *what) {
    printf("FAILED: %s\n", what);
    fflush(0);
    _exit(3);
}

/* Writes a file anew. */
static void put_file(const char *path, const void *bytes, u64 count) {
    int file = open(path, 01 | 0100 | 01000, 0644);
    u64 done = 0;
    while (done < count) {
        long some = write(file, (const char *)bytes + done, count - done);
        if (some <= 0)
            give_up("a file can't be written");
        done += some;
    }
    close(file);
}

/* Reads a file: its length. */
static u64 get_file(const char *path, char *to, u64 room) {
    int file = open(path, 0);
    u64 done = 0;
    long some;
    if (file < 0)
        give_up("a file can't be read");
    while (done < room - 1 && (some = read(file, to + done, room - 1 - done)) > 0)
        done += some;
    close(file);
    to[done] = 0;
    return done;
}

/* Opens a file as a descriptor of the child. */
static void become(const char *path, int flags, int descriptor) {
    int file = open(path, flags, 0644);
    if (file < 0 || dup2(file, descriptor) < 0)
        _exit(4);
    close(file);
}

/* Runs the command line on the file `script`. */
static void run_words(struct outcome *left) {
    int status, child = fork();
    words[word_count] = 0;
    if (child < 0)
        give_up("fork");
    if (child == 0) {
        become("script", 0, 0);
        become("output", 01 | 0100 | 01000, 1);
        become("errors", 01 | 0100 | 01000, 2);
        alarm(TRIAL_SECONDS);
        execv(words[0], words);
        _exit(4);
    }
    waitpid(child, &status, 0);
    left->status = (status & 127) == 14 ? HUNG : status & 127 ? HUNG + (status & 127) : status >> 8;
    left->length = get_file("output", left->output, TEXT_ROOM);
    left->error_length = get_file("errors", left->errors, TEXT_ROOM);
}

/* The beginning of the next command line. */
static void first_word(char *program, char *subcommand) {
    words[0] = program;
    words[1] = subcommand;
    word_count = 2;
}

static void add_word(char *word) {
    if (word_count < MOST_WORDS)
        words[word_count++] = word;
}
