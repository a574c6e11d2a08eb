// A library to preload: of a program's writes to standard output the one whose number WRITE_FAILS gives fails, and all
// others succeed, as where a signal interrupts one. So a test sees whether the program goes on behind a write that failed.
#include <errno.h>
#include <stdlib.h>
#include <sys/syscall.h>
#include <unistd.h>

ssize_t write(int file, const void *bytes, size_t count) {
    static unsigned long number = 0;
    const char *fails = getenv("WRITE_FAILS");
    if (file == STDOUT_FILENO && fails != NULL && ++number == strtoul(fails, NULL, 10)) {
        errno = EIO;
        return -1;
    }
    return syscall(SYS_write, file, bytes, count);
}
