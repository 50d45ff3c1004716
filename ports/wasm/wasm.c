// What agc-console calls of a C library and of the system, as WebAssembly: the heap is here, files and streams are those of the
// host, in JavaScript. There is no C library.
typedef unsigned long size;
typedef long ssize;

// The host's calls. What is below 0 is -1 or -2 of a word, and else an error's number on Linux, negated.
#define HOST(name) __attribute__((import_module("host"), import_name(#name)))
HOST(arg) ssize host_arg(size number, char *to, size room);
HOST(read) ssize host_read(int file, char *to, size bytes);
HOST(write) ssize host_write(int file, const char *from, size bytes);
HOST(open) int host_open(const char *path, size bytes, int flags);
HOST(close) int host_close(int file);
HOST(unlink) int host_unlink(const char *path, size bytes);

// The heap. A block has 2^k or 3 * 2^(k-1) bytes, k at least 5: its kind is 2k or 2k + 1. Its first 16 bytes are its head, and
// the caller has the rest. A freed block is used again for its own kind alone.
struct block {
    size kind;
    // while it is free: the next free one of its kind
    struct block *next;
    char room[];
};
static struct block *free_blocks[128];
// the linker's: the first byte behind the program's own
extern char __heap_base;
// the first byte that no block has, and the end of the memory
static size unused, end;

static size bytes_of(size kind) { return (size)(kind & 1 ? 3 : 2) << (kind / 2 - 1); }

// Makes sure of this many unused bytes, if the host gives them; memory comes in pages of 64 KiB.
static int has_unused(size bytes) {
    if (!unused) {
        unused = ((size)&__heap_base + 15) & ~(size)15;
        end = __builtin_wasm_memory_size(0) << 16;
    }
    if (bytes <= end - unused)
        return 1;
    size pages = (bytes - (end - unused) + 0xffff) >> 16;
    // 4 MiB at once, or as much as is needed
    size many = pages < 64 ? 64 : pages;
    if (__builtin_wasm_memory_grow(0, many) == (size)-1) {
        many = pages;
        if (__builtin_wasm_memory_grow(0, many) == (size)-1)
            return 0;
    }
    end += many << 16;
    return 1;
}

void *malloc(size bytes) {
    size kind = 10;
    if (bytes > (size)1 << 40)
        return 0;
    while (bytes_of(kind) - sizeof(struct block) < bytes)
        kind++;
    struct block *block = free_blocks[kind];
    if (block) {
        free_blocks[kind] = block->next;
        return block->room;
    }
    if (!has_unused(bytes_of(kind)))
        return 0;
    block = (struct block *)unused;
    unused += bytes_of(kind);
    block->kind = kind;
    return block->room;
}

// the block with this room
static struct block *block_of(char *room) { return (struct block *)(room - sizeof(struct block)); }

void free(char *room) {
    if (!room)
        return;
    struct block *block = block_of(room);
    block->next = free_blocks[block->kind];
    free_blocks[block->kind] = block;
}

void *realloc(char *room, size bytes) {
    if (!room)
        return malloc(bytes);
    size has = bytes_of(block_of(room)->kind) - sizeof(struct block);
    if (bytes <= has)
        return room;
    char *made = malloc(bytes);
    if (made) {
        __builtin_memcpy(made, room, has);
        free(room);
    }
    return made;
}

// the number of the last error
static int error;
int rattle_errno(void) { return error; }
void rattle_set_errno(int number) { error = number; }

// an answer of the host as a call of Linux ends: -1 for an error
static ssize ended(ssize answer) {
    if (answer >= 0)
        return answer;
    error = (int)-answer;
    return -1;
}

static size length(const char *text) {
    size bytes = 0;
    while (text[bytes])
        bytes++;
    return bytes;
}

// words of the command line; there is no environment
ssize rattle_arg(size number, char *to, size room) { return host_arg(number, to, room); }
ssize rattle_env(const char *name, char *to, size room) { return -1; }
ssize rattle_env_at(size number, char *to, size room) { return -1; }

// files and streams
int open(const char *path, int flags, ...) { return (int)ended(host_open(path, length(path), flags)); }
int isatty(int file) { return 0; } // No stream is a terminal: the page reads the answers.
int close(int file) { return (int)ended(host_close(file)); }
int unlink(const char *path) { return (int)ended(host_unlink(path, length(path))); }
ssize read(int file, char *to, size bytes) { return ended(host_read(file, to, bytes)); }
ssize write(int file, const char *from, size bytes) { return ended(host_write(file, from, bytes)); }
ssize __write(int file, const char *from, size bytes) { return write(file, from, bytes); }

// no signals come here
long __sysv_signal(int signal, long handler) { return 0; }
