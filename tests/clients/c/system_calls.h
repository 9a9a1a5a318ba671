/* What clients have in common to which the library's system calls come (WRAPS syscall). */
#ifndef SYSTEM_CALLS_H
#define SYSTEM_CALLS_H

#include <linux/futex.h>
#include <stdarg.h>
#include <sys/syscall.h>

long __real_syscall(long number, ...);
long __wrap_syscall(long number, ...);

/* Reads the six words of a system call, as the C library does. The caller may have given fewer, so AddressSanitizer is not to look. */
static __attribute__((no_sanitize_address)) void read_words(va_list rest, long words[6]) {
    for (int i = 0; i < 6; i++) {
        words[i] = va_arg(rest, long);
    }
}

#endif
