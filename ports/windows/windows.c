// What a program calls of Linux, on Windows: files, the clock, threads and locks by msvcrt.dll and kernel32.dll. It includes no
// header, so that the toolchain's own clang compiles it alone: the declarations here are those of the two libraries.
typedef unsigned long long size;
typedef long long ssize;
typedef unsigned short wide;

// of msvcrt.dll; its numbers of errors are those of Linux, as far as the programs name them
int *_errno(void);
int __wgetmainargs(int *count, wide ***words, wide ***lines, int expands, int *start);
void *malloc(size bytes);
int _wopen(const wide *path, int flags, int mode);
int _wunlink(const wide *path);
int _read(int file, void *to, unsigned bytes);
int _write(int file, const void *from, unsigned bytes);
int _close(int file);
int _isatty(int file);
int _commit(int file);
char *strerror(int error);
wide *_wfullpath(wide *to, const wide *path, size room);
int _setmode(int file, int mode);

// of kernel32.dll and its part for waiting
int MultiByteToWideChar(unsigned page, unsigned flags, const char *from, int bytes, wide *to, int room);
int WideCharToMultiByte(unsigned page, unsigned flags, const wide *from, int units, char *to, int room, void *, void *);
unsigned GetFileAttributesW(const wide *path);
unsigned GetLongPathNameW(const wide *path, wide *to, unsigned room);
int MoveFileExW(const wide *from, const wide *to, unsigned flags);
int SetConsoleOutputCP(unsigned page);
int QueryPerformanceCounter(ssize *count);
int QueryPerformanceFrequency(ssize *count);
void GetSystemTimeAsFileTime(ssize *time);
void *CreateThread(void *, size stack, void *(*start)(void *), void *argument, unsigned flags, void *);
unsigned WaitForSingleObject(void *thread, unsigned milliseconds);
int CloseHandle(void *thread);
int SwitchToThread(void);
unsigned GetCurrentThreadId(void);
unsigned GetLastError(void);
int WaitOnAddress(volatile void *place, void *unchanged, size bytes, unsigned milliseconds);
void WakeByAddressSingle(void *place);
void WakeByAddressAll(void *place);

// of words.c
extern int word_count;
extern char **word_list, **environment_lines;

enum { UTF8 = 65001, FOREVER = 0xffffffff, NOTHING = 0xffffffff };
// Linux's numbers of errors
enum { ENOENT = 2, EINTR = 4, EAGAIN = 11, EACCES = 13, EEXIST = 17, ERANGE = 34, ENOSYS = 38, ETIMEDOUT = 110 };

static int fails(int error) {
    *_errno() = error;
    return -1;
}

// the number of the last error
int rattle_errno(void) { return *_errno(); }
void rattle_set_errno(int error) { *_errno() = error; }

// the words or lines of this list in UTF-8, in memory that stays
static char **in_utf8(wide **list) {
    size count = 0;
    while (list[count])
        count++;
    char **made = malloc((count + 1) * sizeof *made);
    for (size at = 0; made && at < count; at++) {
        int bytes = WideCharToMultiByte(UTF8, 0, list[at], -1, 0, 0, 0, 0);
        made[at] = malloc((size)bytes);
        if (!made[at])
            return 0;
        WideCharToMultiByte(UTF8, 0, list[at], -1, made[at], bytes, 0, 0);
    }
    if (made)
        made[count] = 0;
    return made;
}

// The linker's --wrap=main has the start of mingw-w64 call __wrap_main, and __real_main is the program's own main, which takes
// no words. Those that are passed in here have lost what the system's code page lacks.
int __real_main(void);
int __wrap_main(void) {
    wide **words, **lines;
    int start = 0;
    __wgetmainargs(&word_count, &words, &lines, 0, &start);
    word_list = in_utf8(words);
    environment_lines = in_utf8(lines);
    if (!word_list || !environment_lines)
        return 1;
    // 0x8000 is binary: no byte is changed at the end of a line
    for (int file = 0; file < 3; file++)
        _setmode(file, 0x8000);
    SetConsoleOutputCP(UTF8);
    return __real_main();
}

// a path of at most 4095 bytes in the form of Windows, or 0; /dev/null is NUL
static const wide *path_of(const char *path, wide *to) {
    if (!__builtin_strcmp(path, "/dev/null"))
        path = "NUL";
    // 8: it must be UTF-8
    return MultiByteToWideChar(UTF8, 8, path, -1, to, 4096) ? to : 0;
}

// Opens a file: binary, and not for processes that this one starts. The flags are Linux's, what is returned are Windows'.
int open(const char *path, int flags, ...) {
    wide room[4096];
    const wide *name = path_of(path, room);
    if (!name)
        return fails(ENOENT);
    int made = (flags & 3) | 0x8080;
    // O_CREAT, O_EXCL, O_TRUNC and O_APPEND
    made |= (flags & 0100 ? 0x100 : 0) | (flags & 0200 ? 0x400 : 0) | (flags & 01000 ? 0x200 : 0) | (flags & 02000 ? 8 : 0);
    // NUL is always there, but Windows would make it all the same
    if (flags & 0200 && !__builtin_strcmp(path, "/dev/null"))
        return fails(EEXIST);
    // a new file may be read and written
    return _wopen(name, made, 0600);
}

int unlink(const char *path) {
    wide room[4096];
    const wide *name = path_of(path, room);
    return name ? _wunlink(name) : fails(ENOENT);
}

int close(int file) { return _close(file); }
int isatty(int file) { return _isatty(file) != 0; }

// Windows counts with 32 bits; a read or write may always be shorter
static unsigned at_most(size bytes) { return bytes > 0x40000000 ? 0x40000000 : (unsigned)bytes; }

// Reads. On a terminal control-Z at the start of a line is the end, as control-D is on Linux.
ssize read(int file, char *to, size bytes) {
    int got = _read(file, to, at_most(bytes));
    return got > 0 && to[0] == 26 && _isatty(file) ? 0 : got;
}

ssize write(int file, const void *from, size bytes) { return _write(file, from, at_most(bytes)); }
ssize __write(int file, const void *from, size bytes) { return write(file, from, bytes); }

int fsync(int file) { return _commit(file); }
// The standard library names these beside it. No program calls them on Windows.
int fdatasync(int file) { return _commit(file); }
int fchmod(int file, unsigned mode) { return fails(ENOSYS); }
int flock(int file, int what) { return fails(ENOSYS); }

// the text of an error's number
int __xpg_strerror_r(int error, char *to, size room) {
    const char *text = strerror(error);
    size length = 0;
    for (; text[length]; length++) {
        if (length + 1 >= room)
            return ERANGE;
        to[length] = text[length];
    }
    to[length] = 0;
    return 0;
}

// Gives a file another name. A file that has this name is replaced.
int rename(const char *from, const char *to) {
    wide rooms[2][4096];
    const wide *old = path_of(from, rooms[0]), *made = path_of(to, rooms[1]);
    if (!old || !made || GetFileAttributesW(old) == NOTHING)
        return fails(ENOENT);
    // 1 is MOVEFILE_REPLACE_EXISTING
    return MoveFileExW(old, made, 1) ? 0 : fails(EACCES);
}

// The whole path of a file that is there, its letters as they were made, in a room of 4096 bytes.
char *realpath(const char *path, char *to) {
    wide room[4096], whole[4096];
    const wide *name = path_of(path, room);
    if (name && GetFileAttributesW(name) != NOTHING && _wfullpath(whole, name, 4096) &&
        GetLongPathNameW(whole, room, 4096) && WideCharToMultiByte(UTF8, 0, room, -1, to, 4096, 0, 0))
        return to;
    fails(ENOENT);
    return 0;
}

// What the programs look at of Linux's struct statx, of 256 bytes: whether a path is that of a file or of a folder.
struct statx {
    unsigned mask, to_mode[6];
    unsigned short mode;
    char others[226];
};
int statx(int folder, const char *path, int flags, unsigned mask, struct statx *to) {
    wide room[4096];
    const wide *name = path_of(path, room);
    unsigned attributes = name ? GetFileAttributesW(name) : NOTHING;
    if (attributes == NOTHING)
        return fails(ENOENT);
    __builtin_memset(to, 0, sizeof *to);
    // STATX_TYPE; 16 is a folder, 64 a device, as NUL
    to->mask = 1;
    to->mode = attributes & 16 ? 0040000 : attributes & 64 ? 0020000 : 0100000;
    return 0;
}

// The programs have the system ignore writes to closed pipes, which is so on Windows.
ssize __sysv_signal(int signal, ssize handler) { return 0; }

struct time { ssize seconds, nanoseconds; };

// The time of day (clock 0), since 1970, or of a clock that never goes back (any other).
int clock_gettime(int clock, struct time *to) {
    // 100 nanoseconds each, since 1601
    ssize count, each = 10000000;
    if (clock == 0) {
        GetSystemTimeAsFileTime(&count);
        count -= 116444736000000000;
    } else {
        QueryPerformanceCounter(&count);
        QueryPerformanceFrequency(&each);
    }
    to->seconds = count / each;
    // the frequency is at most some billions, so this does not overflow
    to->nanoseconds = (ssize)((size)(count % each) * 1000000000u / (size)each);
    return 0;
}

// Threads. The attributes set the size of a guard, which Windows sets itself.
int pthread_attr_init(void *attributes) { return 0; }
int pthread_attr_setguardsize(void *attributes, size bytes) { return 0; }
int pthread_attr_destroy(void *attributes) { return 0; }
size pthread_self(void) { return GetCurrentThreadId(); }
int sched_yield(void) {
    SwitchToThread();
    return 0;
}

// Both systems pass the argument and the result in the same registers. The stack is that of the program, 8 MiB.
int pthread_create(void **thread, const void *attributes, void *(*start)(void *), void *argument) {
    *thread = CreateThread(0, 0, start, argument, 0, 0);
    return *thread ? 0 : EAGAIN;
}

// The programs take no result of a thread.
int pthread_join(void *thread, void **result) {
    WaitForSingleObject(thread, FOREVER);
    CloseHandle(thread);
    if (result)
        *result = 0;
    return 0;
}

int pthread_detach(void *thread) {
    CloseHandle(thread);
    return 0;
}

// Linux's call 202, futex, of 32 bits: 128 waits while the place has this value, 129 wakes as many as wait, at most this number.
ssize syscall(ssize number, volatile int *place, ssize call, ssize value, const struct time *timeout) {
    if (number == 202 && call == 129) {
        if (value == 1)
            WakeByAddressSingle((void *)place);
        else
            WakeByAddressAll((void *)place);
        return 0;
    }
    if (number != 202 || call != 128)
        return fails(ENOSYS);
    int unchanged = (int)value;
    unsigned most = timeout ? (unsigned)(timeout->seconds * 1000 + timeout->nanoseconds / 1000000) : FOREVER;
    if (*place != unchanged)
        return fails(EAGAIN);
    if (WaitOnAddress(place, &unchanged, 4, most))
        return 0;
    // 1460 is ERROR_TIMEOUT; any other end is as an interrupt, after which the program looks again
    return fails(GetLastError() == 1460 ? ETIMEDOUT : EINTR);
}
