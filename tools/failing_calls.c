/* Makes one call of a program on a device fail: tools/rows.py preloads it where a case says `fails`.

   FAILING_CALL is a device and a number, as "log 2": that call on the device, counted from 0, fails, and no other. The devices are

     files    the calls that open a file
     reads    the reads of a file, once it is open
     writes   the writes to a file, once it is open
     input    the reads of standard input, each of which takes at most one byte, so that the calls can be told by the bytes
     output   the writes to standard output
     log      the writes to standard error
     memory   the requests for memory of the program, but not those of the loader before

   FILE_ROOM is how many bytes a file may get: a write beyond is cut there, and fails where it would begin there.

   LONGEST_CALL is how many bytes a read of a file or a write moves at most; where it is 0, a write takes nothing, and says so without a fault.

   The functions are those of the C library that a program calls; each goes on to the system's call of its name. */
#define _GNU_SOURCE
#include <errno.h>
#include <signal.h>
#include <stdarg.h>
#include <stdlib.h>
#include <string.h>
#include <sys/resource.h>
#include <sys/syscall.h>
#include <sys/types.h>
#include <unistd.h>

/* (fcntl.h may define these functions itself) */
#define AT_FDCWD -100

/* whether the program itself has begun, or what is called for it */
static int has_begun;

__attribute__((constructor)) static void begin(void)
{
    has_begun = 1;
    const char *room = getenv("FILE_ROOM");
    if (room == NULL)
        return;
    struct rlimit limit = {(rlim_t)atol(room), (rlim_t)atol(room)};
    /* (the signal would end the program where the write fails) */
    signal(SIGXFSZ, SIG_IGN);
    setrlimit(RLIMIT_FSIZE, &limit);
}

/* How many bytes a call moves that is to move so many. */
static size_t moved(size_t size)
{
    const char *longest = getenv("LONGEST_CALL");
    return longest != NULL && size > (size_t)atol(longest) ? (size_t)atol(longest) : size;
}

/* Counts a call on the device, and tells whether it is the one that fails. */
static int fails(const char *device)
{
    static long count;
    const char *failing = getenv("FAILING_CALL");
    size_t length = strlen(device);
    if (failing == NULL || strncmp(failing, device, length) != 0 || failing[length] != ' ')
        return 0;
    if (count++ != atol(failing + length + 1))
        return 0;
    errno = EIO;
    return 1;
}

/* (what they are in the GNU C library) */
void *__libc_malloc(size_t size);
void *__libc_realloc(void *held, size_t size);

void *malloc(size_t size)
{
    return has_begun && fails("memory") ? NULL : __libc_malloc(size);
}

void *realloc(void *held, size_t size)
{
    return has_begun && fails("memory") ? NULL : __libc_realloc(held, size);
}

ssize_t read(int file, void *bytes, size_t size)
{
    if (fails(file == STDIN_FILENO ? "input" : "reads"))
        return -1;
    /* (a read of nothing is the end of a file) */
    size_t piece = moved(size) > 0 ? moved(size) : size;
    return syscall(SYS_read, file, bytes, file == STDIN_FILENO && piece > 1 ? 1 : piece);
}

ssize_t write(int file, const void *bytes, size_t size)
{
    if (fails(file == STDOUT_FILENO ? "output" : file == STDERR_FILENO ? "log" : "writes"))
        return -1;
    size_t piece = moved(size);
    return size > 0 && piece == 0 ? 0 : syscall(SYS_write, file, bytes, piece);
}

ssize_t __write(int file, const void *bytes, size_t size)
{
    return write(file, bytes, size);
}

/* Opens a file, where the flags say so with a mode, if that call is not the one that fails. */
static int open_at(int folder, const char *name, int flags, mode_t mode)
{
    return fails("files") ? -1 : (int)syscall(SYS_openat, folder, name, flags, mode);
}

#define OPENING(function, parameters, folder)              \
    int function parameters                                \
    {                                                      \
        va_list rest;                                      \
        va_start(rest, flags);                             \
        mode_t mode = va_arg(rest, mode_t);                \
        va_end(rest);                                      \
        return open_at(folder, name, flags, mode);         \
    }

OPENING(open, (const char *name, int flags, ...), AT_FDCWD)
OPENING(open64, (const char *name, int flags, ...), AT_FDCWD)
OPENING(openat, (int folder, const char *name, int flags, ...), folder)
OPENING(openat64, (int folder, const char *name, int flags, ...), folder)
