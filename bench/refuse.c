/* Loaded in front of the C library, refuses one growth of a program, or one thread: the growth whose
   number, counted from 1, REFUSE_AT says, and the thread whose number REFUSE_THREAD says; none where that
   is 0 or absent. When it refuses it writes a byte to the file whose number REFUSE_TOLD says. */
#define _GNU_SOURCE
#include <dlfcn.h>
#include <errno.h>
#include <pthread.h>
#include <stdlib.h>
#include <unistd.h>

struct refusal {
    const char *name;
    long count, at;
};

static struct refusal growths = {"REFUSE_AT", 0, -1}, threads = {"REFUSE_THREAD", 0, -1};

static long number(const char *name)
{
    const char *text = getenv(name);
    return text ? atol(text) : 0;
}

static int is_refused(struct refusal *one)
{
    if (one->at < 0)
        one->at = number(one->name);
    if (one->at == 0 || __atomic_add_fetch(&one->count, 1, __ATOMIC_SEQ_CST) != one->at)
        return 0;
    long told = number("REFUSE_TOLD");
    return told <= 0 || write((int)told, "!", 1) == 1;
}

void *malloc(size_t size)
{
    static void *(*grow)(size_t);
    if (!grow)
        grow = (void *(*)(size_t))dlsym(RTLD_NEXT, "malloc");
    return is_refused(&growths) ? NULL : grow(size);
}

void *realloc(void *old, size_t size)
{
    static void *(*grow)(void *, size_t);
    if (!grow)
        grow = (void *(*)(void *, size_t))dlsym(RTLD_NEXT, "realloc");
    return is_refused(&growths) ? NULL : grow(old, size);
}

int pthread_create(pthread_t *thread, const pthread_attr_t *attr, void *(*run)(void *), void *given)
{
    static int (*create)(pthread_t *, const pthread_attr_t *, void *(*)(void *), void *);
    if (!create)
        create = (int (*)(pthread_t *, const pthread_attr_t *, void *(*)(void *), void *))dlsym(RTLD_NEXT, "pthread_create");
    return is_refused(&threads) ? EAGAIN : create(thread, attr, run, given);
}
