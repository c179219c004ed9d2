/* Loaded in front of the C library by tools/refused: refuses a program's requests for memory, its reads or its writes.
 *
 * REFUSE="memory FIRST LAST" refuses the requests from the FIRST to the LAST, counted from 1. "read FIRST LAST" and
 * "write FIRST LAST" do so with reads of standard input and writes to standard output, which then fail. READ=N and
 * WRITE=N have each of these move N bytes at most. COUNTS=FILE: how many requests, reads and writes there were is
 * written there.
 */
#define _GNU_SOURCE
#include <errno.h>
#include <stdio.h>
#include <stdlib.h>
#include <string.h>
#include <sys/syscall.h>
#include <unistd.h>

enum kind { MEMORY, READ, WRITE, KINDS };

static const char *const names[KINDS] = {"memory", "read", "write"};
static unsigned long counts[KINDS], first[KINDS], last[KINDS], at_most[KINDS];

extern void *__libc_malloc(size_t);
extern void *__libc_realloc(void *, size_t);
extern void *__libc_calloc(size_t, size_t);

static int refuses(enum kind kind)
{
    unsigned long count = ++counts[kind];
    return first[kind] <= count && count <= last[kind];
}

static void *out_of_memory(void)
{
    errno = ENOMEM;
    return NULL;
}

void *malloc(size_t size)
{
    return refuses(MEMORY) ? out_of_memory() : __libc_malloc(size);
}

void *realloc(void *block, size_t size)
{
    return refuses(MEMORY) ? out_of_memory() : __libc_realloc(block, size);
}

void *calloc(size_t count, size_t size)
{
    return refuses(MEMORY) ? out_of_memory() : __libc_calloc(count, size);
}

static ssize_t fails(void)
{
    errno = EIO;
    return -1;
}

static size_t shortened(enum kind kind, size_t count)
{
    return count < at_most[kind] ? count : at_most[kind];
}

ssize_t read(int file, void *buffer, size_t count)
{
    if (file != STDIN_FILENO)
        return syscall(SYS_read, file, buffer, count);
    return refuses(READ) ? fails() : syscall(SYS_read, file, buffer, shortened(READ, count));
}

ssize_t write(int file, const void *buffer, size_t count)
{
    if (file != STDOUT_FILENO)
        return syscall(SYS_write, file, buffer, count);
    return refuses(WRITE) ? fails() : syscall(SYS_write, file, buffer, shortened(WRITE, count));
}

static void set(const char *name, unsigned long from, unsigned long to)
{
    for (int kind = 0; kind < KINDS; kind++)
        if (strcmp(name, names[kind]) == 0) {
            first[kind] = from;
            last[kind] = to;
        }
}

__attribute__((constructor)) static void begin(void)
{
    const char *refused = getenv("REFUSE"), *reads = getenv("READ"), *writes = getenv("WRITE");
    char name[8];
    unsigned long from, to;
    if (refused && sscanf(refused, "%7s %lu %lu", name, &from, &to) == 3)
        set(name, from, to);
    at_most[READ] = reads ? strtoul(reads, NULL, 10) : -1UL;
    at_most[WRITE] = writes ? strtoul(writes, NULL, 10) : -1UL;
    memset(counts, 0, sizeof counts);
}

__attribute__((destructor)) static void end(void)
{
    unsigned long seen[KINDS];
    const char *told = getenv("COUNTS");
    FILE *file;
    memcpy(seen, counts, sizeof seen);
    memset(last, 0, sizeof last);
    if (told && (file = fopen(told, "w"))) {
        fprintf(file, "%lu %lu %lu\n", seen[MEMORY], seen[READ], seen[WRITE]);
        fclose(file);
    }
}
