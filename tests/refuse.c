/* Preloaded before a program, refuses one of its allocations: the one whose number REFUSE tells, counted from 1; and of its threads those from the number
   that THREADS tells on, also counted from 1. When the program ends, writes to file descriptor 3 how many allocations were asked for, how many blocks the
   program still holds, and how many threads were asked for.

   A block is the program's where it was asked for from the code of the program's own file. The C library and the loader hold blocks of their own up to the
   end, as one for each thread, which the program can't give back: these don't count, though each is refused in its turn too. */
#define _GNU_SOURCE
#include <dlfcn.h>
#include <errno.h>
#include <link.h>
#include <pthread.h>
#include <stdatomic.h>
#include <stddef.h>
#include <stdint.h>
#include <stdio.h>
#include <stdlib.h>
#include <sys/syscall.h>
#include <unistd.h>

extern void *__libc_malloc(size_t);
extern void *__libc_calloc(size_t, size_t);
extern void *__libc_realloc(void *, size_t);
extern void __libc_free(void *);

static atomic_long asked, held, started;
static long refused, refused_threads;
static uintptr_t code, code_end;

/* The program's own file is the first that the loader tells of. */
static int note_code(struct dl_phdr_info *file, size_t size, void *unused) {
    (void)size, (void)unused;
    for (int i = 0; i < file->dlpi_phnum; i++) {
        const ElfW(Phdr) *part = &file->dlpi_phdr[i];
        if (part->p_type == PT_LOAD && part->p_flags & PF_X) {
            code = file->dlpi_addr + part->p_vaddr;
            code_end = code + part->p_memsz;
        }
    }
    return 1;
}

__attribute__((constructor)) static void begin(void) {
    const char *number = getenv("REFUSE"), *thread = getenv("THREADS");
    dl_iterate_phdr(note_code, NULL);
    atomic_store(&asked, 0);
    refused = number ? atol(number) : 0;
    refused_threads = thread ? atol(thread) : 0;
}

__attribute__((destructor)) static void tell(void) {
    dprintf(3, "%ld %ld %ld\n", atomic_load(&asked), atomic_load(&held), atomic_load(&started));
}

/* A program that ends by this call runs no destructor. */
void _exit(int status) {
    tell();
    for (;;) {
        syscall(SYS_exit_group, status);
    }
}

static int refuses(void) {
    if (atomic_fetch_add(&asked, 1) + 1 != refused) {
        return 0;
    }
    errno = ENOMEM;
    return 1;
}

static void count(const void *caller, int blocks) {
    if ((uintptr_t)caller >= code && (uintptr_t)caller < code_end) {
        atomic_fetch_add(&held, blocks);
    }
}

int pthread_create(pthread_t *thread, const pthread_attr_t *attributes, void *(*start)(void *), void *argument) {
    int (*create)(pthread_t *, const pthread_attr_t *, void *(*)(void *), void *) = dlsym(RTLD_NEXT, "pthread_create");
    long number = atomic_fetch_add(&started, 1) + 1;
    return refused_threads && number >= refused_threads ? EAGAIN : create(thread, attributes, start, argument);
}

void *malloc(size_t size) {
    void *block = refuses() ? NULL : __libc_malloc(size);
    count(__builtin_return_address(0), block != NULL);
    return block;
}

void *calloc(size_t number, size_t size) {
    void *block = refuses() ? NULL : __libc_calloc(number, size);
    count(__builtin_return_address(0), block != NULL);
    return block;
}

void *realloc(void *block, size_t size) {
    void *moved = refuses() ? NULL : __libc_realloc(block, size);
    count(__builtin_return_address(0), block == NULL && moved != NULL);
    return moved;
}

void free(void *block) {
    count(__builtin_return_address(0), -(block != NULL));
    __libc_free(block);
}
