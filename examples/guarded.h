/* Buffers that end where readable memory ends: whoever reads or writes one byte past the end of
 * one is stopped at once. Include it before any other header.
 */
#ifndef GUARDED_H
#define GUARDED_H

/* For MAP_ANONYMOUS, which -std=c11 leaves out. */
#ifndef _DEFAULT_SOURCE
#define _DEFAULT_SOURCE
#endif

#include <stddef.h>
#include <stdint.h>
#include <stdio.h>
#include <stdlib.h>
#include <sys/mman.h>

/* A multiple of every page size in use, so that the guard starts with a page. */
enum { GUARD = 65536 };

/* The pages before the guard. */
static inline size_t guarded_room(size_t len)
{
    return (len + GUARD - 1) / GUARD * GUARD;
}

/* A buffer of zeros, its last byte the last one before the guard. */
static inline uint8_t *guarded(size_t len)
{
    size_t room = guarded_room(len);
    uint8_t *start = mmap(NULL, room + GUARD, PROT_READ | PROT_WRITE,
                          MAP_PRIVATE | MAP_ANONYMOUS, -1, 0);
    if (start == MAP_FAILED || mprotect(start + room, GUARD, PROT_NONE) != 0) {
        perror("guarded");
        exit(1);
    }
    return start + room - len;
}

/* Gives the buffer and its guard back. */
static inline void unguard(uint8_t *bytes, size_t len)
{
    size_t room = guarded_room(len);
    munmap(bytes + len - room, room + GUARD);
}

#endif
