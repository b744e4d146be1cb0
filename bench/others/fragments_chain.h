/* A chain of objects that are found by their addresses. */
#ifndef FRAGMENTS_CHAIN_H
#define FRAGMENTS_CHAIN_H

#include "fragments.h"

struct object { struct object *next; };

static void *allocated(size_t size);
static void released(void *object);

static struct object *first;
static struct object *last;

static bool append(unsigned cells)
{
    struct object *made = allocated(cells * 8);
    if (made == NULL) {
        return false;
    }
    made->next = NULL;
    *(last == NULL ? &first : &last->next) = made;
    last = made;
    return true;
}

static unsigned thin(bool (*does_go)(void))
{
    unsigned dropped = 0;
    for (struct object **place = &first; *place != NULL;) {
        struct object *object = *place;
        if (does_go()) {
            *place = object->next;
            released(object);
            dropped++;
        } else {
            last = object;
            place = &object->next;
        }
    }
    return dropped;
}

#endif
