// What a program calls of Linux that a static C library (glibc or musl) lacks, or gives under another name.
typedef unsigned long size;
typedef long ssize;

// of the C library
int *__errno_location(void);
ssize write(int file, const void *from, size bytes);
extern char **environ;

// of words.c
extern int word_count;
extern char **word_list, **environment_lines;

// The linker's --wrap=main has the C library call __wrap_main, and __real_main is the program's own main, which takes no
// words.
int __real_main(void);
int __wrap_main(int count, char **words) {
    word_count = count;
    word_list = words;
    environment_lines = environ;
    return __real_main();
}

// the number of the last error
int rattle_errno(void) { return *__errno_location(); }
void rattle_set_errno(int error) { *__errno_location() = error; }

// glibc's other name of write, which musl lacks. It is weak, so that glibc's own goes before it.
__attribute__((weak)) ssize __write(int file, const void *from, size bytes) { return write(file, from, bytes); }

#ifdef __x86_64__
// call 332 of x86-64, which musl lacks
long syscall(long number, ...);
int statx(int folder, const char *path, int flags, unsigned mask, void *to) {
    return (int)syscall(332, folder, path, flags, mask, to);
}
#endif
