/* Preloaded into a program, this library refuses one of the program's allocations: the one whose number, counted from
   1, is in the variable REFUSED_ALLOCATION. When it does, it makes the file that the variable REFUSED_MARK names.

   The allocator of a program that Rattle builds calls malloc and realloc. Counted are the calls that come from the
   program's own code; those of the C library pass. */
#define _GNU_SOURCE
#include <dlfcn.h>
#include <errno.h>
#include <fcntl.h>
#include <link.h>
#include <stddef.h>
#include <stdint.h>
#include <stdlib.h>
#include <unistd.h>

/* Where the program's own code lies: nowhere until it is known. */
static uintptr_t code_begin, code_end;
static unsigned long calls, refused;
static const char *mark;

/* The first object that is told of is the program. */
static int note_code(struct dl_phdr_info *object, size_t size, void *unused)
{
    (void)size;
    (void)unused;
    uintptr_t begin = UINTPTR_MAX, end = 0;
    for (int i = 0; i < object->dlpi_phnum; i++) {
        const ElfW(Phdr) *segment = &object->dlpi_phdr[i];
        if (segment->p_type != PT_LOAD || !(segment->p_flags & PF_X))
            continue;
        uintptr_t at = object->dlpi_addr + segment->p_vaddr;
        if (at < begin)
            begin = at;
        if (at + segment->p_memsz > end)
            end = at + segment->p_memsz;
    }
    code_begin = begin;
    code_end = end;
    return 1;
}

__attribute__((constructor)) static void begin(void)
{
    const char *number = getenv("REFUSED_ALLOCATION");
    refused = number ? strtoul(number, NULL, 10) : 0;
    mark = getenv("REFUSED_MARK");
    dl_iterate_phdr(note_code, NULL);
}

static int is_refused(void *caller)
{
    if ((uintptr_t)caller < code_begin || (uintptr_t)caller >= code_end)
        return 0;
    if (__atomic_add_fetch(&calls, 1, __ATOMIC_SEQ_CST) != refused)
        return 0;
    int file = mark ? open(mark, O_CREAT | O_WRONLY, 0600) : -1;
    if (file >= 0)
        close(file);
    errno = ENOMEM;
    return 1;
}

void *malloc(size_t size)
{
    static void *(*next)(size_t);
    if (!next)
        *(void **)&next = dlsym(RTLD_NEXT, "malloc");
    return is_refused(__builtin_return_address(0)) ? NULL : next(size);
}

void *realloc(void *block, size_t size)
{
    static void *(*next)(void *, size_t);
    if (!next)
        *(void **)&next = dlsym(RTLD_NEXT, "realloc");
    return is_refused(__builtin_return_address(0)) ? NULL : next(block, size);
}
