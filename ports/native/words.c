// The arguments and the environment of a program, on Linux and on Windows. It includes no header, so that the toolchain's own
// clang compiles it alone: the declarations here are those of the C library.
typedef unsigned long long size;
typedef long long ssize;

// of the C library
char *getenv(const char *name);

// the words of the command line, the program's name first, and the environment's lines NAME=VALUE: linux.c and windows.c set
// them before the program starts
int word_count;
char **word_list;
char **environment_lines;

// copies a text, without the zero at its end, and returns its length: -1 if there is none, -2 if there is no room for it
static ssize copy(const char *text, char *to, size room) {
    size length = 0;
    if (!text)
        return -1;
    for (; text[length]; length++) {
        if (length == room)
            return -2;
        to[length] = text[length];
    }
    return (ssize)length;
}

// the number of words
size rattle_arg_count(void) { return (size)word_count; }

// copies the word of this number
ssize rattle_arg(size number, char *to, size room) {
    return number < (size)word_count ? copy(word_list[number], to, room) : -1;
}

// copies the value of this name
ssize rattle_env(const char *name, char *to, size room) { return copy(getenv(name), to, room); }

// copies the line of this number
ssize rattle_env_at(size number, char *to, size room) {
    size at = 0;
    // the last line is followed by a null
    while (at < number && environment_lines[at])
        at++;
    return copy(environment_lines[at], to, room);
}
