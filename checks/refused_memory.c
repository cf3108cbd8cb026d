// Refuses one allocation of a program, for checks/refused-memory, which builds it and has it loaded before the C library
// (LD_PRELOAD). It wants Linux with glibc.
//
// Counted are the calls of malloc, calloc, realloc, aligned_alloc, posix_memalign and memalign that come from the program
// itself: those whose return address is in it, and not in the C library or the loader. So the first one that is counted is
// the first of the program's main, and what the C library wants for itself, as it starts or makes a thread, is given. The
// call with the number REFUSED_MEMORY is answered with NULL and ENOMEM, and a block that was to grow stays as it was. The
// file REFUSED_MEMORY_COUNTS, of 16 octets, is kept in memory, and so tells at any time, also after a signal, how many calls
// were counted and how many of them were refused, two numbers of 64 bits.
#define _GNU_SOURCE
#include <errno.h>
#include <fcntl.h>
#include <link.h>
#include <malloc.h>
#include <stdint.h>
#include <stdlib.h>
#include <sys/mman.h>
#include <unistd.h>

extern void *__libc_malloc(size_t size);
extern void *__libc_calloc(size_t count, size_t size);
extern void *__libc_realloc(void *block, size_t size);
extern void *__libc_memalign(size_t align, size_t size);

struct counts {
    uint64_t counted, refused;
};

static struct counts nowhere, *counts = &nowhere;
static uint64_t wanted;
static uintptr_t program_begin, program_end;

// Notes where the program lies, which is the first of all that is loaded.
static int note_program(struct dl_phdr_info *info, size_t size, void *data) {
    (void)size;
    (void)data;
    program_begin = UINTPTR_MAX;
    for (int i = 0; i < info->dlpi_phnum; i++) {
        const ElfW(Phdr) *part = &info->dlpi_phdr[i];
        if (part->p_type != PT_LOAD)
            continue;
        uintptr_t begin = info->dlpi_addr + part->p_vaddr, end = begin + part->p_memsz;
        program_begin = begin < program_begin ? begin : program_begin;
        program_end = end > program_end ? end : program_end;
    }
    return 1;
}

__attribute__((constructor)) static void begin(void) {
    const char *number = getenv("REFUSED_MEMORY"), *path = getenv("REFUSED_MEMORY_COUNTS");
    int file = path ? open(path, O_RDWR | O_CLOEXEC) : -1;
    if (file >= 0) {
        void *kept = mmap(NULL, sizeof *counts, PROT_READ | PROT_WRITE, MAP_SHARED, file, 0);
        if (kept != MAP_FAILED)
            counts = kept;
        close(file);
    }
    wanted = number ? strtoull(number, NULL, 10) : 0;
    dl_iterate_phdr(note_program, NULL);
}

// Whether the call that returns there is counted, and the one to be refused.
static int is_refused(void *caller) {
    uintptr_t place = (uintptr_t)caller;
    if (place < program_begin || place >= program_end)
        return 0;
    if (__atomic_add_fetch(&counts->counted, 1, __ATOMIC_SEQ_CST) != wanted)
        return 0;
    __atomic_add_fetch(&counts->refused, 1, __ATOMIC_SEQ_CST);
    errno = ENOMEM;
    return 1;
}

#define IS_REFUSED is_refused(__builtin_return_address(0))

void *malloc(size_t size) {
    return IS_REFUSED ? NULL : __libc_malloc(size);
}

void *calloc(size_t count, size_t size) {
    return IS_REFUSED ? NULL : __libc_calloc(count, size);
}

void *realloc(void *block, size_t size) {
    return IS_REFUSED ? NULL : __libc_realloc(block, size);
}

void *memalign(size_t align, size_t size) {
    return IS_REFUSED ? NULL : __libc_memalign(align, size);
}

void *aligned_alloc(size_t align, size_t size) {
    return IS_REFUSED ? NULL : __libc_memalign(align, size);
}

int posix_memalign(void **block, size_t align, size_t size) {
    void *found = IS_REFUSED ? NULL : __libc_memalign(align, size);
    if (!found)
        return ENOMEM;
    *block = found;
    return 0;
}
