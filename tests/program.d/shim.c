/* Loaded before the C library (LD_PRELOAD) in a run of a program: standard input comes in the pieces, and both it and standard output fail where
   the environment says. PROGRAM_PIECES: sizes of pieces, with commas, from the first again after the last; no read goes past the end of a piece.
   PROGRAM_READ_FAILS: the offset from which reading fails. PROGRAM_WRITES: the most that a write takes. PROGRAM_WRITE_FAILS: as for reading.
   The first two with a 1 or 2 behind them are for the file whose whole path PROGRAM_FILE1 or PROGRAM_FILE2 has, by whatever descriptor it is read. */
#define _GNU_SOURCE
#include <errno.h>
#include <stdio.h>
#include <stdlib.h>
#include <string.h>
#include <sys/syscall.h>
#include <sys/types.h>
#include <unistd.h>

enum { STANDARD, FILES = 2, INPUTS };

/* A word of the environment, of an input. */
static const char *word(const char *name, int input) {
    char numbered[32];
    if (input == STANDARD) return getenv(name);
    snprintf(numbered, sizeof numbered, "%s%d", name, input);
    return getenv(numbered);
}

static size_t number(const char *name, int input) {
    const char *text = word(name, input);
    return text ? strtoul(text, NULL, 10) : (size_t)-1;
}

static size_t least(size_t a, size_t b) { return a < b ? a : b; }

/* The input that a descriptor is of, or -1. */
static int input_of(int fd) {
    char link[32], path[4096];
    if (fd == STDIN_FILENO && !getenv("PROGRAM_FILE1")) return STANDARD;
    snprintf(link, sizeof link, "/proc/self/fd/%d", fd);
    ssize_t size = readlink(link, path, sizeof path - 1);
    path[size > 0 ? size : 0] = 0;
    for (int input = 1; input <= FILES; input++) {
        const char *file = word("PROGRAM_FILE", input);
        if (file && strcmp(file, path) == 0) return input;
    }
    return fd == STDIN_FILENO ? STANDARD : -1;
}

static size_t next_piece(int input) {
    static const char *at[INPUTS];
    const char *all = word("PROGRAM_PIECES", input);
    char *end;
    if (!all) return (size_t)-1;
    if (!at[input] || !*at[input]) at[input] = all;
    size_t size = strtoul(at[input], &end, 10);
    at[input] = *end ? end + 1 : end;
    return size;
}

ssize_t read(int fd, void *buffer, size_t size) {
    static size_t done[INPUTS], left[INPUTS];
    int input = input_of(fd);
    if (input < 0) return syscall(SYS_read, fd, buffer, size);
    size_t until = number("PROGRAM_READ_FAILS", input);
    if (done[input] >= until) {
        errno = EIO;
        return -1;
    }
    if (left[input] == 0) left[input] = next_piece(input);
    ssize_t got = syscall(SYS_read, fd, buffer, least(size, least(left[input], until - done[input])));
    if (got > 0) {
        done[input] += (size_t)got;
        left[input] -= (size_t)got;
    }
    return got;
}

ssize_t write(int fd, const void *buffer, size_t size) {
    static size_t done;
    if (fd != STDOUT_FILENO) return syscall(SYS_write, fd, buffer, size);
    size_t until = number("PROGRAM_WRITE_FAILS", STANDARD);
    if (done >= until) {
        errno = EIO;
        return -1;
    }
    ssize_t put = syscall(SYS_write, fd, buffer, least(size, least(number("PROGRAM_WRITES", STANDARD), until - done)));
    if (put > 0) done += (size_t)put;
    return put;
}
