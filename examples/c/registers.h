/* What the examples share: calls that are to come to what they ask for. */
#ifndef REGISTERS_H
#define REGISTERS_H

#include "fodderpause.h"

#include <stdio.h>
#include <stdlib.h>

/* The board is in register 0. */
enum { BOARD = 0 };

/* Ends the program where a call didn't come to what it was to. */
static inline void done(uint32_t code)
{
    if (code != FODDERPAUSE_DONE) {
        fprintf(stderr, "%s\n", fodderpause_code_text(code));
        exit(1);
    }
}

static inline void set(fodderpause_seat *seat, uint32_t r, uint32_t i, uint32_t v)
{
    done(fodderpause_set(seat, r, i, v).code);
}

static inline fodderpause_cell get(fodderpause_seat *seat, uint32_t d, uint32_t r, uint32_t i)
{
    fodderpause_cell cell = fodderpause_get(seat, d, r, i);
    done(cell.code);
    return cell;
}

static inline void copy(fodderpause_seat *seat, uint32_t d, uint32_t r)
{
    done(fodderpause_copy(seat, d, r).code);
}

static inline void num(fodderpause_seat *seat, uint32_t d, uint32_t n)
{
    done(fodderpause_load_number(seat, d, n).code);
}

static inline void nil(fodderpause_seat *seat, uint32_t d)
{
    done(fodderpause_nil(seat, d).code);
}

#endif
