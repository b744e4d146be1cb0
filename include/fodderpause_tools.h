/*
 * What programs over fodderpause.h write again and again: a stack of roots, and bytes and strings in arrays. Inline functions; nothing is linked.
 *
 * Each answers the code of the first call that wasn't DONE, and DONE where all were. `scratch` is a register that the function may overwrite, another one than those
 * that it is asked to read or to fill. Those that make an array don't wait for the collector: at FULL or SPINE_FULL nothing is made, and cycles are ended first
 * (fodderpause_end_cycle twice, in one thread) before they are called again.
 */
#ifndef FODDERPAUSE_TOOLS_H
#define FODDERPAUSE_TOOLS_H

#include "fodderpause.h"

#include <string.h>

#ifdef __cplusplus
extern "C" {
#endif

/*
 * A stack of roots: an array of up to 4,096 cells in one register, and here, outside the heap, how many of its cells are used. What is pushed stays
 * a root while registers hold something else. What was popped stays one too, until its cell is pushed upon or cleared.
 */
typedef struct fodderpause_roots {
    fodderpause_seat *seat;
    uint32_t r;     /* the register of the array */
    uint32_t depth; /* how many are on the stack */
    uint32_t most;  /* how many were at once since the last clearing */
} fodderpause_roots;

/* Makes the array, which register r then holds. Codes of fodderpause_new_array. */
static inline uint32_t fodderpause_roots_make(fodderpause_roots *roots, fodderpause_seat *seat, uint32_t r, uint32_t cells)
{
    fodderpause_roots made = {seat, r, 0, 0};
    uint32_t code = fodderpause_new_array(seat, r, cells).code;
    if (code == FODDERPAUSE_DONE) {
        *roots = made;
    }
    return code;
}

/* Puts what register v holds onto the stack. NO_FIELD where the stack is full. */
static inline uint32_t fodderpause_push(fodderpause_roots *roots, uint32_t v)
{
    uint32_t code = fodderpause_set(roots->seat, roots->r, roots->depth, v).code;
    if (code == FODDERPAUSE_DONE) {
        roots->depth++;
        roots->most = roots->depth > roots->most ? roots->depth : roots->most;
    }
    return code;
}

/* Register d gets what was pushed last. NO_FIELD where nothing is on the stack. */
static inline uint32_t fodderpause_pop(fodderpause_roots *roots, uint32_t d)
{
    if (roots->depth == 0) {
        return FODDERPAUSE_NO_FIELD;
    }
    uint32_t code = fodderpause_get(roots->seat, d, roots->r, roots->depth - 1).code;
    if (code == FODDERPAUSE_DONE) {
        roots->depth--;
    }
    return code;
}

/* Register d gets what was pushed `below` others ago: 0 is the last. NO_FIELD where fewer are on the stack. */
static inline uint32_t fodderpause_peek(fodderpause_roots *roots, uint32_t d, uint32_t below)
{
    if (below >= roots->depth) {
        return FODDERPAUSE_NO_FIELD;
    }
    return fodderpause_get(roots->seat, d, roots->r, roots->depth - 1 - below).code;
}

/* Sets the cells to nil that were popped, so that what they held is garbage where nothing else leads to it. */
static inline uint32_t fodderpause_roots_clear(fodderpause_roots *roots, uint32_t scratch)
{
    uint32_t code = fodderpause_nil(roots->seat, scratch).code;
    while (code == FODDERPAUSE_DONE && roots->most > roots->depth) {
        code = fodderpause_set(roots->seat, roots->r, roots->most - 1, scratch).code;
        if (code == FODDERPAUSE_DONE) {
            roots->most--;
        }
    }
    return code;
}

/* The most bytes that one array holds: its first cell has their number, and each other three of them. */
#define FODDERPAUSE_MOST_BYTES (3u * 4095u)

/* Puts the number n into cell i of register r's array. */
static inline uint32_t fodderpause_set_number(fodderpause_seat *seat, uint32_t r, uint32_t i, uint32_t n, uint32_t scratch)
{
    uint32_t code = fodderpause_load_number(seat, scratch, n).code;
    return code == FODDERPAUSE_DONE ? fodderpause_set(seat, r, i, scratch).code : code;
}

/* Makes an array of the bytes, which register d then holds. OUT_OF_RANGE where they are too many; codes of fodderpause_new_array. */
static inline uint32_t fodderpause_bytes_make(fodderpause_seat *seat, uint32_t d, uint32_t scratch, const void *bytes, size_t length)
{
    const unsigned char *from = (const unsigned char *) bytes;
    if (length > FODDERPAUSE_MOST_BYTES || d == scratch) {
        return FODDERPAUSE_OUT_OF_RANGE;
    }
    uint32_t code = fodderpause_new_array(seat, d, (uint32_t) ((length + 2) / 3 + 1)).code;
    if (code == FODDERPAUSE_DONE) {
        code = fodderpause_set_number(seat, d, 0, (uint32_t) length, scratch);
    }
    for (size_t at = 0; code == FODDERPAUSE_DONE && at < length; at += 3) {
        uint32_t three = 0;
        for (size_t k = at; k < at + 3 && k < length; k++) {
            three |= (uint32_t) from[k] << (8 * (k - at));
        }
        code = fodderpause_set_number(seat, d, (uint32_t) (at / 3 + 1), three, scratch);
    }
    return code;
}

/* How many bytes register r's array has. */
static inline uint32_t fodderpause_bytes_length(fodderpause_seat *seat, uint32_t r, uint32_t scratch, size_t *length)
{
    fodderpause_cell cell = fodderpause_get(seat, scratch, r, 0);
    if (cell.code == FODDERPAUSE_DONE) {
        *length = cell.number;
    }
    return cell.code;
}

/* Reads the first bytes of register r's array, at most `most` of them, and says how many it has in all. */
static inline uint32_t fodderpause_bytes_read(fodderpause_seat *seat, uint32_t r, uint32_t scratch, void *into, size_t most, size_t *length)
{
    unsigned char *to = (unsigned char *) into;
    size_t all = 0;
    uint32_t code = fodderpause_bytes_length(seat, r, scratch, &all);
    size_t wanted = all < most ? all : most;
    for (size_t at = 0; code == FODDERPAUSE_DONE && at < wanted; at += 3) {
        fodderpause_cell cell = fodderpause_get(seat, scratch, r, (uint32_t) (at / 3 + 1));
        code = cell.code;
        for (size_t k = at; code == FODDERPAUSE_DONE && k < at + 3 && k < wanted; k++) {
            to[k] = (unsigned char) (cell.number >> (8 * (k - at)));
        }
    }
    if (code == FODDERPAUSE_DONE) {
        *length = all;
    }
    return code;
}

/* Makes an array of the string's bytes without its last, the 0. */
static inline uint32_t fodderpause_string_make(fodderpause_seat *seat, uint32_t d, uint32_t scratch, const char *text)
{
    return fodderpause_bytes_make(seat, d, scratch, text, strlen(text));
}

/* Reads a string, cut where it needs more than `size` bytes with its 0. OUT_OF_RANGE where there is no room for that. */
static inline uint32_t fodderpause_string_read(fodderpause_seat *seat, uint32_t r, uint32_t scratch, char *into, size_t size)
{
    size_t length = 0;
    if (size == 0) {
        return FODDERPAUSE_OUT_OF_RANGE;
    }
    uint32_t code = fodderpause_bytes_read(seat, r, scratch, into, size - 1, &length);
    into[code != FODDERPAUSE_DONE ? 0 : length < size - 1 ? length : size - 1] = '\0';
    return code;
}

#ifdef __cplusplus
}
#endif

#endif
