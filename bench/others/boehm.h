/* The functions of the collector of Boehm, Demers and Weiser (libgc) that are called here, as its own header declares them: so it can be timed where only the shared library is there. */
#ifndef BOEHM_H
#define BOEHM_H

#include <pthread.h>
#include <stddef.h>

void GC_init(void);
void *GC_malloc(size_t size);
void GC_enable_incremental(void);
size_t GC_get_heap_size(void);
unsigned long GC_get_gc_no(void);
void GC_gcollect(void);
void GC_set_max_heap_size(unsigned long size);
void GC_set_all_interior_pointers(int are);
void GC_set_warn_proc(void (*told)(char *message, unsigned long word));
void GC_ignore_warn_proc(char *message, unsigned long word);
int GC_pthread_create(pthread_t *thread, const pthread_attr_t *how, void *(*start)(void *), void *argument);
int GC_pthread_join(pthread_t thread, void **result);

#endif
