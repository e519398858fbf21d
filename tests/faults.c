/* Faults of memory, of files and of standard streams: loaded before the C library, it makes one call of a kind fail.

   REFUSE=N      the Nth growth of memory (malloc or realloc) is refused
   FAIL_READ=N   the Nth read of standard input fails
   FAIL_FILE=N   the Nth read of another file fails
   FAIL_WRITE=N  the Nth write to standard output fails
   TAKE_NONE=N   the Nth write to standard output takes no bytes
   STOP_READ=N   the Nth read of any file is interrupted, before it gave anything
   STOP_WRITE=N  the Nth write to standard output is interrupted, before it took anything
   ONE_BYTE=1    each read and each write to standard output moves one byte at most
   MADE=FILE     where it tells, by writing FILE, that such a call was made */
#include <errno.h>
#include <fcntl.h>
#include <stdatomic.h>
#include <stdlib.h>
#include <sys/syscall.h>
#include <unistd.h>

extern void *__libc_malloc(size_t);
extern void *__libc_realloc(void *, size_t);

struct fault {
    const char *name;
    unsigned long number;
    atomic_ulong calls;
};

static struct fault growth = {"REFUSE", 0, 0}, reading = {"FAIL_READ", 0, 0}, file_reading = {"FAIL_FILE", 0, 0},
                    writing = {"FAIL_WRITE", 0, 0}, taking = {"TAKE_NONE", 0, 0}, read_stopped = {"STOP_READ", 0, 0},
                    write_stopped = {"STOP_WRITE", 0, 0}, one_byte = {"ONE_BYTE", 0, 0};

static void set(struct fault *fault) {
    const char *number = getenv(fault->name);
    fault->number = number ? strtoul(number, NULL, 10) : 0;
    atomic_store(&fault->calls, 0);
}

__attribute__((constructor)) static void set_all(void) {
    set(&growth);
    set(&reading);
    set(&file_reading);
    set(&writing);
    set(&taking);
    set(&read_stopped);
    set(&write_stopped);
    set(&one_byte);
}

static int is_due(struct fault *fault) {
    if (!fault->number || atomic_fetch_add(&fault->calls, 1) + 1 != fault->number)
        return 0;
    long file = syscall(SYS_open, getenv("MADE"), O_WRONLY | O_CREAT, 0600);
    if (file < 0)
        _exit(99);
    syscall(SYS_close, file);
    return 1;
}

void *malloc(size_t size) {
    if (!is_due(&growth))
        return __libc_malloc(size);
    errno = ENOMEM;
    return NULL;
}

void *realloc(void *old, size_t size) {
    if (!is_due(&growth))
        return __libc_realloc(old, size);
    errno = ENOMEM;
    return NULL;
}

static size_t at_most(size_t size) {
    return one_byte.number && size > 1 ? 1 : size;
}

static ssize_t failed(int why) {
    errno = why;
    return -1;
}

ssize_t read(int file, void *bytes, size_t size) {
    if (is_due(&read_stopped))
        return failed(EINTR);
    if (is_due(file == STDIN_FILENO ? &reading : &file_reading))
        return failed(EIO);
    return syscall(SYS_read, file, bytes, at_most(size));
}

ssize_t write(int file, const void *bytes, size_t size) {
    if (file != STDOUT_FILENO)
        return syscall(SYS_write, file, bytes, size);
    if (is_due(&taking))
        return 0;
    if (is_due(&write_stopped))
        return failed(EINTR);
    if (is_due(&writing))
        return failed(EIO);
    return syscall(SYS_write, file, bytes, at_most(size));
}

ssize_t __write(int file, const void *bytes, size_t size) {
    return write(file, bytes, size);
}
