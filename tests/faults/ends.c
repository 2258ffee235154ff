// An LD_PRELOAD library that runs a program once for each line of a list, with a standard input and a standard output
// that fail as the line says. The processes are forked before `main`, so that the program is loaded once.
//
// ENDS_LIST names the file of the list. A line has words `NAME=NUMBER`, and `input=PATH`:
//   input    the file that the standard input has
//   feeds    so many line feeds in its place; `zeros` zeros without an end
//   most     a read gives, and a write takes, so many bytes at most
//   read     the read of this number fails
//   every    each read fails
//   between  so many reads fail before each that gives something
//   write    the write of this number fails; with `on` each from it on
//   nothing  such a write takes no bytes, in place of failing
//   error    the error of what fails, EIO if it isn't given
// For each line the library writes `STATUS READS GIVEN WRITES LENGTH`, a line feed, and LENGTH bytes: what the program
// wrote. STATUS is -1 for a program that a signal ended.
#define _GNU_SOURCE
#include <errno.h>
#include <fcntl.h>
#include <stdio.h>
#include <stdlib.h>
#include <string.h>
#include <sys/mman.h>
#include <sys/stat.h>
#include <sys/syscall.h>
#include <sys/uio.h>
#include <sys/wait.h>
#include <unistd.h>
struct counts {
    unsigned long reads, given, writes;
};
static struct counts own, *counts = &own;
static unsigned long most, bad_read, every, between, bad_write, on, nothing, zeros, left;
static const char *input;
static int is_listed, error;
static unsigned long number_of(const char *line, const char *name, unsigned long other) {
    const char *found = strstr(line, name);
    return found ? strtoul(found + strlen(name), 0, 10) : other;
}
static void load(const char *path) {
    struct stat about;
    int file = open(path, O_RDONLY);
    if (file < 0 || fstat(file, &about)) _exit(99);
    left = (unsigned long)about.st_size;
    input = left ? mmap(0, left, PROT_READ, MAP_PRIVATE, file, 0) : 0;
    close(file);
}
static void begin(char *line) {
    *line = ' ';
    char *path = strstr(line, "input=");
    most = number_of(line, " most=", -1);
    bad_read = number_of(line, " read=", 0);
    every = number_of(line, " every=", 0);
    between = number_of(line, " between=", 0);
    bad_write = number_of(line, " write=", 0);
    on = number_of(line, " on=", 0);
    nothing = number_of(line, " nothing=", 0);
    zeros = number_of(line, " zeros=", 0);
    left = number_of(line, " feeds=", 0);
    error = (int)number_of(line, " error=", EIO);
    is_listed = 1;
    alarm(60);
    if (path) {
        path[strcspn(path, " ")] = 0;
        load(path + strlen("input="));
    }
}
static void tell(int status, int written) {
    char line[120], bytes[65536];
    off_t at = 0, length = lseek(written, 0, SEEK_END);
    int code = WIFEXITED(status) ? WEXITSTATUS(status) : -1;
    int end = snprintf(line, sizeof line, "%d %lu %lu %lu %ld\n", code, counts->reads, counts->given, counts->writes,
                       (long)length);
    if (syscall(SYS_write, 1, line, end) != end) _exit(98);
    while (at < length) {
        ssize_t here = pread(written, bytes, sizeof bytes, at);
        for (ssize_t told = 0; told < here;) {
            ssize_t more = syscall(SYS_write, 1, bytes + told, here - told);
            if (more <= 0) _exit(98);
            told += more;
        }
        at += here;
    }
}
// The whole list, after a line feed. (A stream that a child shares would be read again when the child ends.)
static char *lines_of(const char *list) {
    struct stat about;
    int file = open(list, O_RDONLY);
    if (file < 0 || fstat(file, &about)) _exit(99);
    char *text = calloc((size_t)about.st_size + 2, 1);
    text[0] = '\n';
    if (syscall(SYS_read, file, text + 1, about.st_size) != about.st_size) _exit(99);
    close(file);
    return text;
}
__attribute__((constructor)) static void run_all(void) {
    const char *list = getenv("ENDS_LIST");
    int written = memfd_create("written", 0);
    if (!list) return;
    char *line = lines_of(list);
    counts = mmap(0, sizeof *counts, PROT_READ | PROT_WRITE, MAP_SHARED | MAP_ANONYMOUS, -1, 0);
    for (char *end; (end = strchr(line + 1, '\n')); line = end) {
        int status;
        *end = 0;
        memset(counts, 0, sizeof *counts);
        if (ftruncate(written, 0) || lseek(written, 0, SEEK_SET)) _exit(97);
        pid_t child = fork();
        if (child < 0) _exit(97);
        if (child == 0) {
            begin(line);
            dup2(written, 1);
            return;
        }
        waitpid(child, &status, 0);
        tell(status, written);
    }
    _exit(0);
}
static int has_fault(unsigned long count) {
    if (!every && count != bad_read && !(between && count % (between + 1))) return 0;
    errno = error;
    return 1;
}
static ssize_t give(char *bytes, size_t size) {
    if (has_fault(++counts->reads)) return -1;
    if (size > most) size = most;
    if (!zeros && size > left) size = left;
    if (input && size) {
        memcpy(bytes, input, size);
        input += size;
    } else {
        memset(bytes, zeros ? 0 : '\n', size);
    }
    left -= zeros ? 0 : size;
    counts->given += size;
    return (ssize_t)size;
}
static int fails(void) {
    counts->writes++;
    return bad_write && (counts->writes == bad_write || (on && counts->writes > bad_write));
}
ssize_t read(int file, void *bytes, size_t size) {
    return is_listed && file == 0 ? give(bytes, size) : syscall(SYS_read, file, bytes, size);
}
ssize_t write(int file, const void *bytes, size_t size) {
    if (is_listed && file == 1) {
        if (fails()) return nothing ? 0 : (errno = error, -1);
        if (size > most) size = most;
    }
    return syscall(SYS_write, file, bytes, size);
}
ssize_t readv(int file, const struct iovec *parts, int count) {
    return count ? read(file, parts->iov_base, parts->iov_len) : 0;
}
ssize_t writev(int file, const struct iovec *parts, int count) {
    return count ? write(file, parts->iov_base, parts->iov_len) : 0;
}
