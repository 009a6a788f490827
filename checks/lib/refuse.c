/* Refuses one request for memory (growth) of the program that loads it. REFUSED_GROWTH is its number, counted from 1.
 *
 *     cc -shared -fPIC -O2 -o refuse.so refuse.c -ldl
 *     LD_PRELOAD=./refuse.so REFUSED_GROWTH=7 REFUSED_NOTE=note PROGRAM
 *
 * The number counts only requests of the program itself, without those of the C library and the loader. With
 * REFUSED_THREAD, it counts only the requests of that thread. Thread 0 is the first thread of the program, thread 1 is
 * the first thread that it starts, and so on. After the refusal, the file REFUSED_NOTE exists. It has the number of
 * threads that the program had started before, the thread that requested the memory, and the requested bytes.
 */
#define _GNU_SOURCE
#include <dlfcn.h>
#include <errno.h>
#include <fcntl.h>
#include <link.h>
#include <pthread.h>
#include <stdatomic.h>
#include <stddef.h>
#include <stdint.h>
#include <stdio.h>
#include <stdlib.h>
#include <unistd.h>

extern void *__libc_malloc(size_t size);
extern void *__libc_realloc(void *block, size_t size);

/* The maximum number of threads. The library refuses to start more. */
#define MOST_THREADS 64

/* The work of a thread. */
struct work {
    void *(*start)(void *);
    void *argument;
    unsigned thread;
};

static uintptr_t first_address, end_address;
static unsigned long refused_growth;
static long refused_thread = -1;
static atomic_ulong growths;
static atomic_uint threads;
static struct work works[MOST_THREADS];
static _Thread_local unsigned own_thread;

/* `dl_iterate_phdr` reports the program as the first object. */
static int note_program(struct dl_phdr_info *object, size_t size, void *data)
{
    (void)size;
    (void)data;
    for (int place = 0; place < object->dlpi_phnum; place++) {
        const ElfW(Phdr) *part = &object->dlpi_phdr[place];
        if (part->p_type == PT_LOAD && (part->p_flags & PF_X)) {
            first_address = object->dlpi_addr + part->p_vaddr;
            end_address = first_address + part->p_memsz;
        }
    }
    return 1;
}

__attribute__((constructor)) static void begin(void)
{
    const char *number = getenv("REFUSED_GROWTH");
    const char *thread = getenv("REFUSED_THREAD");
    dl_iterate_phdr(note_program, NULL);
    refused_growth = number ? strtoul(number, NULL, 10) : 0;
    refused_thread = thread ? strtol(thread, NULL, 10) : -1;
}

static int is_refused(const void *caller, size_t size)
{
    uintptr_t address = (uintptr_t)caller;
    if (address < first_address || address >= end_address)
        return 0;
    if (refused_thread >= 0 && own_thread != refused_thread)
        return 0;
    if (atomic_fetch_add(&growths, 1) + 1 != refused_growth)
        return 0;
    const char *name = getenv("REFUSED_NOTE");
    int note = name ? open(name, O_WRONLY | O_CREAT, 0600) : -1;
    if (note >= 0) {
        dprintf(note, "%u %u %zu\n", atomic_load(&threads), own_thread, size);
        close(note);
    }
    return 1;
}

void *malloc(size_t size)
{
    return is_refused(__builtin_return_address(0), size) ? NULL : __libc_malloc(size);
}

void *realloc(void *block, size_t size)
{
    return is_refused(__builtin_return_address(0), size) ? NULL : __libc_realloc(block, size);
}

static void *begin_thread(void *argument)
{
    const struct work *work = argument;
    own_thread = work->thread;
    return work->start(work->argument);
}

int pthread_create(pthread_t *thread, const pthread_attr_t *attributes, void *(*start)(void *), void *argument)
{
    int (*create)(pthread_t *, const pthread_attr_t *, void *(*)(void *), void *);
    *(void **)&create = dlsym(RTLD_NEXT, "pthread_create");
    unsigned place = atomic_fetch_add(&threads, 1);
    if (place >= MOST_THREADS)
        return EAGAIN;
    works[place] = (struct work){start, argument, place + 1};
    return create(thread, attributes, begin_thread, &works[place]);
}
