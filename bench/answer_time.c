/* Times the answer to a question of `emftools`, for bench/query. It is loaded before the C library.

   Once the index is made, an answer takes memory about twenty times: for a path, whose room doubles, and for the reply. The search takes none. So as
   the program writes its reply, the processor time since its 32nd last call for memory is printed to standard error, in nanoseconds. It has the path,
   the search, and a few of the last additions to the index. */
#define _GNU_SOURCE
#include <stdio.h>
#include <stdlib.h>
#include <sys/syscall.h>
#include <time.h>
#include <unistd.h>

enum { CALLS = 32 };

void *__libc_malloc(size_t), *__libc_realloc(void *, size_t);

static long long at[CALLS];
static unsigned long calls;

static long long now(void)
{
    struct timespec time;
    clock_gettime(CLOCK_PROCESS_CPUTIME_ID, &time);
    return time.tv_sec * 1000000000LL + time.tv_nsec;
}

void *malloc(size_t size)
{
    at[calls++ % CALLS] = now();
    return __libc_malloc(size);
}

void *realloc(void *old, size_t size)
{
    at[calls++ % CALLS] = now();
    return __libc_realloc(old, size);
}

ssize_t write(int file, const void *bytes, size_t size)
{
    if (file == STDOUT_FILENO)
        dprintf(STDERR_FILENO, "%lld", now() - at[calls % CALLS]);
    return syscall(SYS_write, file, bytes, size);
}
