// Loaded before the C library. It refuses the allocation with a number, and writes a byte when it does. If a count is
// given, it refuses that many from this one on. If a text is given, it refuses none after the text was written to
// standard output. For number 0 it refuses none, and reports at the end how many allocations there were.
#define _GNU_SOURCE
#include <stdio.h>
#include <stdlib.h>
#include <string.h>
#include <sys/syscall.h>
#include <unistd.h>
extern void *__libc_malloc(size_t);
extern void *__libc_realloc(void *, size_t);
static unsigned long count, first, many = 1;
static int teller = -1, told;
static const char *until;
static size_t found;
static unsigned long number_of(const char *name, unsigned long other) {
    const char *text = getenv(name);
    return text ? strtoul(text, 0, 10) : other;
}
static int refuse(void) {
    if (count == 0) {
        first = number_of("REFUSED_ALLOCATION", 0);
        many = number_of("REFUSED_MANY", 1);
        teller = (int)number_of("REFUSED_TELL", -1);
        until = getenv("REFUSED_UNTIL");
    }
    count++;
    if (first == 0 || count < first || count - first >= many) return 0;
    if (!told) told = write(teller, "!", 1) | 1;
    return 1;
}
void *malloc(size_t size) { return refuse() ? 0 : __libc_malloc(size); }
void *realloc(void *old, size_t size) { return refuse() ? 0 : __libc_realloc(old, size); }
// The text may be written in parts. Only its first byte may occur twice in it, so a match begins again at that byte.
ssize_t write(int file, const void *bytes, size_t size) {
    const char *text = bytes;
    for (size_t at = 0; file == 1 && until && at < size; at++) {
        found = text[at] == until[found] ? found + 1 : text[at] == until[0];
        if (until[found] == 0) many = 0, until = 0;
    }
    return syscall(SYS_write, file, bytes, size);
}
__attribute__((destructor)) static void tell(void) {
    if (first == 0 && teller >= 0) dprintf(teller, "%lu", count);
}
