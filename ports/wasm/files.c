// What agc-study calls of the system beside what wasm.c has, as WebAssembly: names of files, which the host keeps, and a clock
// that stands.
typedef unsigned long size;
typedef long ssize;

#define HOST(name) __attribute__((import_module("host"), import_name(#name)))
// 0 if there is nothing, 1 for a file, 2 for a folder
HOST(kind) int host_kind(const char *path, size bytes);
HOST(rename) int host_rename(const char *from, size from_bytes, const char *to, size to_bytes);

// of wasm.c
void rattle_set_errno(int number);
ssize rattle_arg(size number, char *to, size room);

// Linux's numbers of errors
enum { ENOENT = 2, EEXIST = 17, ERANGE = 34, ENOSYS = 38 };

static int fails(int error) {
    rattle_set_errno(error);
    return -1;
}

static size length(const char *text) {
    size bytes = 0;
    while (text[bytes])
        bytes++;
    return bytes;
}

int rename(const char *from, const char *to) {
    int answer = host_rename(from, length(from), to, length(to));
    return answer < 0 ? fails(-answer) : 0;
}

// There are no links, so a path that is there is whole. The room has 4096 bytes, and so has the path.
char *realpath(const char *path, char *to) {
    size bytes = length(path);
    if (!host_kind(path, bytes)) {
        fails(ENOENT);
        return 0;
    }
    __builtin_memcpy(to, path, bytes + 1);
    return to;
}

// What the program looks at of Linux's struct statx, of 256 bytes: whether a path is that of a file or of a folder.
struct statx {
    unsigned mask, to_mode[6];
    unsigned short mode;
    char others[226];
};
int statx(int folder, const char *path, int flags, unsigned mask, struct statx *to) {
    int kind = host_kind(path, length(path));
    if (!kind)
        return fails(ENOENT);
    __builtin_memset(to, 0, sizeof *to);
    // STATX_TYPE
    to->mask = 1;
    to->mode = kind == 2 ? 0040000 : 0100000;
    return 0;
}

// What was written is there.
int fsync(int file) { return 0; }
int fdatasync(int file) { return 0; }

// The standard library names these beside them. No program calls them here.
int fchmod(int file, unsigned mode) { return fails(ENOSYS); }
int flock(int file, int what) { return fails(ENOSYS); }

// the number of words of the command line
size rattle_arg_count(void) {
    size count = 0;
    while (rattle_arg(count, 0, 0) != -1)
        count++;
    return count;
}

// the text of an error's number
int __xpg_strerror_r(int error, char *to, size room) {
    const char *text = error == ENOENT ? "No such file or directory" : error == EEXIST ? "File exists" : "Input/output error";
    size bytes = length(text) + 1;
    if (bytes > room)
        return ERANGE;
    __builtin_memcpy(to, text, bytes);
    return 0;
}

// No time passes, so that no line says how far a run is.
struct time {
    ssize seconds, nanoseconds;
};
int clock_gettime(int clock, struct time *to) {
    to->seconds = to->nanoseconds = 0;
    return 0;
}
