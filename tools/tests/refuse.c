/* Put into a program by LD_PRELOAD, this refuses it memory or threads: REFUSE_CALL is the number of the call of the
   allocator that is refused, REFUSE_THREAD that of the start of a thread, both from 1; where REFUSE_LATER is 1, all later
   ones are refused too; REFUSE_SIZE is a size in bytes, of which each block is refused. For each refusal a byte is written
   to the file descriptor REFUSE_TOLD. */
#define _GNU_SOURCE
#include <dlfcn.h>
#include <errno.h>
#include <pthread.h>
#include <stdatomic.h>
#include <stdlib.h>
#include <unistd.h>

extern void *__libc_malloc(size_t);
extern void *__libc_calloc(size_t, size_t);
extern void *__libc_realloc(void *, size_t);
extern void *__libc_memalign(size_t, size_t);

static unsigned long refused_call, refused_size, refused_thread;
static int later, told;
static atomic_ulong calls, threads;

static unsigned long number(const char *name)
{
    const char *text = getenv(name);
    return text ? strtoul(text, NULL, 10) : 0;
}

__attribute__((constructor)) static void begin(void)
{
    later = number("REFUSE_LATER") == 1;
    told = (int)number("REFUSE_TOLD");
    refused_thread = number("REFUSE_THREAD");
    refused_size = number("REFUSE_SIZE");
    refused_call = number("REFUSE_CALL");
    calls = 0;
}

static int tell(void)
{
    if (write(told, "r", 1) != 1)
        abort();
    errno = ENOMEM;
    return 1;
}

/* Whether the next of these calls is refused, the first of which has this number. */
static int is_refused(atomic_ulong *made, unsigned long first)
{
    unsigned long call = ++*made;
    return first != 0 && call >= first && (call == first || later) && tell();
}

/* Whether the next block is refused, which is so many bytes long. */
static int is_refused_block(size_t size)
{
    return is_refused(&calls, refused_call) || (size != 0 && size == refused_size && tell());
}

void *malloc(size_t size)
{
    return is_refused_block(size) ? NULL : __libc_malloc(size);
}

void *calloc(size_t count, size_t size)
{
    return is_refused_block(count * size) ? NULL : __libc_calloc(count, size);
}

void *realloc(void *block, size_t size)
{
    return is_refused_block(size) ? NULL : __libc_realloc(block, size);
}

void *aligned_alloc(size_t alignment, size_t size)
{
    return is_refused_block(size) ? NULL : __libc_memalign(alignment, size);
}

int posix_memalign(void **block, size_t alignment, size_t size)
{
    void *made = aligned_alloc(alignment, size);
    if (made)
        *block = made;
    return made ? 0 : ENOMEM;
}

int pthread_create(pthread_t *thread, const pthread_attr_t *attributes, void *(*body)(void *), void *argument)
{
    int (*start)(pthread_t *, const pthread_attr_t *, void *(*)(void *), void *) = dlsym(RTLD_NEXT, "pthread_create");
    return is_refused(&threads, refused_thread) ? EAGAIN : start(thread, attributes, body, argument);
}
