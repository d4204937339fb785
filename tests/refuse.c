/* Preloaded, it refuses one request for memory that the program makes. The variable REFUSE says which, as `own 5` or
   `other 5`: the fifth, from 1, of those that its allocator makes, or of those that its code makes past it, for threads and
   children. The variable OWN says where the allocator stands in the program, as `7f10 7f70`. Requests of the C library, of other
   libraries and of children count for nothing. */
#define _GNU_SOURCE
#include <errno.h>
#include <link.h>
#include <stdatomic.h>
#include <stddef.h>
#include <stdint.h>
#include <stdio.h>
#include <stdlib.h>

extern void *__libc_malloc(size_t size);
extern void *__libc_realloc(void *old, size_t size);

static uintptr_t base, from, to;
static unsigned long own_from, own_to;
static int counts_own;
static long refused;
static atomic_long asked;

/* The first object is the program. */
static int find_program(struct dl_phdr_info *object, size_t size, void *none)
{
    (void)size;
    (void)none;
    base = object->dlpi_addr;
    for (int at = 0; at < object->dlpi_phnum; at++) {
        const ElfW(Phdr) *part = &object->dlpi_phdr[at];
        if (part->p_type != PT_LOAD || !(part->p_flags & PF_X))
            continue;
        from = base + part->p_vaddr;
        to = from + part->p_memsz;
    }
    return 1;
}

__attribute__((constructor)) static void begin(void)
{
    const char *which = getenv("REFUSE"), *own = getenv("OWN");
    char word[8] = "";
    if (which && own && sscanf(which, "%7s %ld", word, &refused) == 2 && sscanf(own, "%lx %lx", &own_from, &own_to) == 2)
        counts_own = word[1] == 'w';
    unsetenv("LD_PRELOAD");
    unsetenv("REFUSE");
    unsetenv("OWN");
    dl_iterate_phdr(find_program, NULL);
}

static int is_refused(void *caller)
{
    uintptr_t place = (uintptr_t)caller;
    if (place < from || to <= place)
        return 0;
    int is_own = base + own_from <= place && place < base + own_to;
    return is_own == counts_own && atomic_fetch_add(&asked, 1) + 1 == refused;
}

void *malloc(size_t size)
{
    if (is_refused(__builtin_return_address(0))) {
        errno = ENOMEM;
        return NULL;
    }
    return __libc_malloc(size);
}

void *realloc(void *old, size_t size)
{
    if (is_refused(__builtin_return_address(0))) {
        errno = ENOMEM;
        return NULL;
    }
    return __libc_realloc(old, size);
}
