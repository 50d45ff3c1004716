// A shim that tests load before a program (LD_PRELOAD): it refuses one growth of memory, one start of a thread,
// one read or one write, the one that the environment names by its number, and makes reads and writes short.
//
//   REFUSE_GROWTH=N   the N-th malloc, calloc, realloc, aligned_alloc, memalign or posix_memalign
//   REFUSE_THREAD=N   the N-th pthread_create (EAGAIN)
//   REFUSE_READ=N     the N-th read (EIO)
//   REFUSE_WRITE=N    the N-th write to standard output or standard error (EIO)
//   SHORT_READS=K     no read gives more than K bytes
//   SHORT_WRITES=K    no write to standard output or standard error takes more than K bytes
//   REFUSE_MARK=D     to the file descriptor D goes a line when something is refused: 'growth', 'start' (a growth that
//                     pthread_create asked for), 'thread', 'read' or 'write'
//   END_AFTER=S       the program is ended after S seconds
//
// All are counted from the program's own start: what the loader asks for before is not. The mark is written at the
// refusal, since a program may leave without running destructors.
#define _GNU_SOURCE
#include <dlfcn.h>
#include <errno.h>
#include <pthread.h>
#include <stdatomic.h>
#include <stdlib.h>
#include <string.h>
#include <sys/syscall.h>
#include <sys/uio.h>
#include <unistd.h>

// What the C library's own functions are called below the names that stand here.
void *__libc_malloc(size_t);
void *__libc_calloc(size_t, size_t);
void *__libc_realloc(void *, size_t);
void *__libc_memalign(size_t, size_t);

struct turn {
    atomic_long taken;
    long refused;
};

static struct turn growths, threads, reads, writes;
static long short_reads, short_writes, mark = -1;
static __thread int starts_thread __attribute__((tls_model("initial-exec")));
static int (*start_thread)(pthread_t *, const pthread_attr_t *, void *(*)(void *), void *);

static long number(const char *name, long otherwise) {
    const char *text = getenv(name);
    return text ? atol(text) : otherwise;
}

__attribute__((constructor)) static void begin(void) {
    *(void **)&start_thread = dlsym(RTLD_NEXT, "pthread_create");
    short_reads = number("SHORT_READS", 0);
    short_writes = number("SHORT_WRITES", 0);
    mark = number("REFUSE_MARK", -1);
    threads.refused = number("REFUSE_THREAD", 0);
    reads.refused = number("REFUSE_READ", 0);
    writes.refused = number("REFUSE_WRITE", 0);
    growths.refused = number("REFUSE_GROWTH", 0);
    alarm((unsigned)number("END_AFTER", 0));
}

// Whether this one is to be refused; then it is marked.
static int is_refused(struct turn *turn, const char *line, int error) {
    if (turn->refused == 0 || atomic_fetch_add(&turn->taken, 1) + 1 != turn->refused)
        return 0;
    if (mark >= 0)
        syscall(SYS_write, (int)mark, line, strlen(line));
    errno = error;
    return 1;
}

static int is_growth_refused(void) {
    return is_refused(&growths, starts_thread ? "start\n" : "growth\n", ENOMEM);
}

void *malloc(size_t size) { return is_growth_refused() ? NULL : __libc_malloc(size); }

void *calloc(size_t count, size_t size) { return is_growth_refused() ? NULL : __libc_calloc(count, size); }

void *realloc(void *old, size_t size) { return is_growth_refused() ? NULL : __libc_realloc(old, size); }

void *memalign(size_t align, size_t size) { return is_growth_refused() ? NULL : __libc_memalign(align, size); }

void *aligned_alloc(size_t align, size_t size) { return memalign(align, size); }

int posix_memalign(void **place, size_t align, size_t size) {
    void *made = memalign(align, size);
    if (!made)
        return ENOMEM;
    *place = made;
    return 0;
}

int pthread_create(pthread_t *thread, const pthread_attr_t *attributes, void *(*body)(void *), void *argument) {
    if (is_refused(&threads, "thread\n", EAGAIN))
        return EAGAIN;
    starts_thread = 1;
    int answer = start_thread(thread, attributes, body, argument);
    starts_thread = 0;
    return answer;
}

static size_t at_most(size_t size, long most) { return most > 0 && size > (size_t)most ? (size_t)most : size; }

ssize_t read(int file, void *bytes, size_t size) {
    if (is_refused(&reads, "read\n", EIO))
        return -1;
    return syscall(SYS_read, file, bytes, at_most(size, short_reads));
}

static int is_standard(int file) { return file == STDOUT_FILENO || file == STDERR_FILENO; }

ssize_t write(int file, const void *bytes, size_t size) {
    if (!is_standard(file))
        return syscall(SYS_write, file, bytes, size);
    if (is_refused(&writes, "write\n", EIO))
        return -1;
    return syscall(SYS_write, file, bytes, at_most(size, short_writes));
}

ssize_t __write(int file, const void *bytes, size_t size) { return write(file, bytes, size); }

ssize_t writev(int file, const struct iovec *parts, int count) {
    return count > 0 ? write(file, parts[0].iov_base, parts[0].iov_len) : 0;
}
