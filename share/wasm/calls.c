// What bpfdb calls of C, where it runs as WebAssembly: memory, files, the words of its command line and the number of the last error. Below it are seven functions of the
// host (host.mjs), which answer what they did, or an error's number of Linux as a negative one.
#include "heap.h"

typedef __INT64_TYPE__ integer;

#define OF_HOST(name) __attribute__((import_module("host"), import_name(name)))
OF_HOST("read") int host_read(int file, void *to, unsigned size);
OF_HOST("write") int host_write(int file, const void *from, unsigned size);
OF_HOST("open") int host_open(const char *path, int flags);
OF_HOST("close") int host_close(int file);
OF_HOST("isatty") int host_isatty(int file);
OF_HOST("word") int host_word(unsigned number, void *to, unsigned room);
OF_HOST("variable") int host_variable(const void *name, void *to, unsigned room);

// --- The heap's memory: what the linker leaves free, and what the engine still gives.
enum { PAGE = 65536 };
extern unsigned char __heap_base;

number heap_begin(void) {
    return ((number)(__UINTPTR_TYPE__)&__heap_base + 15) / 16 * 16;
}

int heap_reach(number end) {
    number pages = __builtin_wasm_memory_size(0);
    if (end <= pages * PAGE)
        return 1;
    number wanted = (end + PAGE - 1) / PAGE - pages;
    // (each growing costs the host a new view of the memory: a quarter more is taken where there is that much)
    number ample = pages / 4;
    if (ample > wanted && __builtin_wasm_memory_grow(0, ample) != (__SIZE_TYPE__)-1)
        return 1;
    return __builtin_wasm_memory_grow(0, wanted) != (__SIZE_TYPE__)-1;
}

// What asking for memory comes to. Where there is none, the pointer leads to a byte that nobody owns.
typedef struct {
    number is_there;
    number address;
} tried;

static tried tell(void *block) {
    static unsigned char nothing;
    return (tried){block != 0, (number)(__UINTPTR_TYPE__)(block ? block : &nothing)};
}

tried rattle_alloc(number size, number alignment) {
    return tell(heap_take(size ? size : alignment));
}

tried rattle_realloc(void *block, number kept, number size, number alignment) {
    (void)kept;
    return tell(heap_resize(block, size ? size : alignment));
}

void rattle_dealloc(void *block) {
    heap_give(block);
}

// --- Files, the number of the last error, and words.
static int last_error;

int rattle_errno(void) {
    return last_error;
}

void rattle_set_errno(int error) {
    last_error = error;
}

// What C answers where the host answered this: -1 for an error, whose number is kept.
static integer answer(integer host) {
    if (host >= 0)
        return host;
    last_error = (int)-host;
    return -1;
}

// How much of a transfer is asked of the host at once: its answers have 32 bits. What is left over the caller asks again.
static unsigned part(number size) {
    const number most = 1 << 30;
    return (unsigned)(size < most ? size : most);
}

integer read(int file, void *to, number size) {
    return answer(host_read(file, to, part(size)));
}

integer write(int file, const void *from, number size) {
    return answer(host_write(file, from, part(size)));
}

int open(const char *path, int flags, ...) {
    return (int)answer(host_open(path, flags));
}

int close(int file) {
    return (int)answer(host_close(file));
}

// (bpfdb asks this of standard input alone, to give back what it read beyond `quit`: hosts can't)
integer lseek(int file, integer by, int from) {
    (void)file, (void)by, (void)from;
    const int not_seekable = 29;
    return answer(-not_seekable);
}

// (bpfdb asks where it lies itself, to find what lies beside it: the host names that)
integer readlink(const char *path, void *to, number room) {
    (void)path, (void)to, (void)room;
    const int no_such_file = 2;
    return answer(-no_such_file);
}

int isatty(int file) {
    return host_isatty(file);
}

// The word of this number without a zero byte, and its length; -1 where there is none, -2 where it has more bytes than there is room for.
integer rattle_arg(number word, void *to, number room) {
    return word >> 31 ? -1 : host_word((unsigned)word, to, part(room));
}

// Likewise the variable of this name.
integer rattle_env(const void *name, void *to, number room) {
    return host_variable(name, to, part(room));
}

// (nobody asks for all of them)
integer rattle_env_at(number entry, void *to, number room) {
    (void)entry, (void)to, (void)room;
    return -1;
}

// --- What a program for x86-64 does before its main: it lets writes to a closed pipe fail, and asks which instructions the processor has. Here no signal comes, and
// the code is the engine's: each feature is told as there.
integer __sysv_signal(int signal, integer handler) {
    (void)signal, (void)handler;
    return 0;
}

const void *__x86_get_cpuid_feature_leaf(int leaf) {
    static const unsigned features[8] = {~0u, ~0u, ~0u, ~0u, ~0u, ~0u, ~0u, ~0u};
    (void)leaf;
    return features;
}

integer __write(int file, const void *from, number size) {
    return write(file, from, size);
}

// --- What clang calls by itself: each is one instruction.
void *memcpy(void *to, const void *from, __SIZE_TYPE__ size) {
    return __builtin_memcpy(to, from, size);
}

void *memmove(void *to, const void *from, __SIZE_TYPE__ size) {
    return __builtin_memmove(to, from, size);
}

void *memset(void *to, int byte, __SIZE_TYPE__ size) {
    return __builtin_memset(to, byte, size);
}

// The main of the rewritten module (rewrite.py), and the export that runs it and answers its status.
int bpfdb_main(void);

__attribute__((export_name("run"))) int run(void) {
    return bpfdb_main();
}
