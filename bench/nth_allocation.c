/* Makes the call of malloc, calloc or realloc of the number FAIL_AT fail, counted from 1, and no other one.
 * With FAIL_AT 0 none fails. The number of calls goes to the file COUNT_TO, where one is named.
 *
 *   cc -shared -fPIC -o nth_allocation.so nth_allocation.c
 */
#define _GNU_SOURCE
#include <errno.h>
#include <fcntl.h>
#include <stdio.h>
#include <stdlib.h>
#include <string.h>
#include <unistd.h>

extern void *__libc_malloc(size_t size);
extern void *__libc_calloc(size_t count, size_t size);
extern void *__libc_realloc(void *old, size_t size);

static unsigned long calls;
static unsigned long fail_at;
static int ready;

static int fails(void)
{
    if (!ready) {
        const char *text = getenv("FAIL_AT");
        fail_at = text ? strtoul(text, NULL, 10) : 0;
        ready = 1;
    }
    if (++calls != fail_at)
        return 0;
    errno = ENOMEM;
    return 1;
}

void *malloc(size_t size)
{
    return fails() ? NULL : __libc_malloc(size);
}

void *calloc(size_t count, size_t size)
{
    return fails() ? NULL : __libc_calloc(count, size);
}

void *realloc(void *old, size_t size)
{
    return fails() ? NULL : __libc_realloc(old, size);
}

__attribute__((destructor)) static void count(void)
{
    const char *path = getenv("COUNT_TO");
    char line[32];
    int file;

    if (!path || (file = open(path, O_WRONLY | O_CREAT | O_TRUNC, 0600)) < 0)
        return;
    snprintf(line, sizeof line, "%lu\n", calls);
    if (write(file, line, strlen(line)) < 0)
        _exit(127);
    close(file);
}
