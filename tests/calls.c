/*
 * Makes one call of a seat so many times: `calls KIND COUNT`. tests/calls runs it to see how many instructions each takes.
 */
#include "fodderpause.h"

#include <stdio.h>
#include <stdlib.h>
#include <string.h>

static fodderpause_collector collector = FODDERPAUSE_NO_COLLECTOR;
static fodderpause_seat seats[1] = {FODDERPAUSE_NO_SEAT};
static fodderpause_seat *const seat = seats;

/* Ends the program where a call came to anything but this. */
static void is(uint32_t code, uint32_t wanted)
{
    if (code != wanted) {
        printf("%s, and not %s\n", fodderpause_code_text(code), fodderpause_code_text(wanted));
        exit(1);
    }
}

/* Register 1 has a record of two fields, 2 one of forty, 3 an array of 64 cells and 4 a number; field 1 of each record, field 39 and cell 63 refer to a record. */
static void open_heap(void)
{
    is(fodderpause_make(1024, 1024, 8, &collector, seats, 1), FODDERPAUSE_DONE);
    is(fodderpause_new_record(seat, 1, 2).code, FODDERPAUSE_DONE);
    is(fodderpause_new_record(seat, 2, 40).code, FODDERPAUSE_DONE);
    is(fodderpause_new_array(seat, 3, 64).code, FODDERPAUSE_DONE);
    is(fodderpause_load_number(seat, 4, 7).code, FODDERPAUSE_DONE);
    is(fodderpause_set(seat, 1, 1, 2).code, FODDERPAUSE_DONE);
    is(fodderpause_set(seat, 2, 1, 1).code, FODDERPAUSE_DONE);
    is(fodderpause_set(seat, 2, 39, 1).code, FODDERPAUSE_DONE);
    is(fodderpause_set(seat, 3, 63, 1).code, FODDERPAUSE_DONE);
}

/* Makes turns and polls until the seat has answered a phase of marking, where the barrier is on. */
static void put_barrier_on(void)
{
    while (fodderpause_phase(&collector).phase % 7 != 3) {
        if (fodderpause_turn(&collector).kind == FODDERPAUSE_WAITS) {
            is(fodderpause_poll(seat).code, FODDERPAUSE_DONE);
        }
    }
    is(fodderpause_poll(seat).code, FODDERPAUSE_DONE);
}

static void get_number(void) { is(fodderpause_get(seat, 5, 1, 0).code, FODDERPAUSE_DONE); }
static void get_object(void) { is(fodderpause_get(seat, 5, 1, 1).code, FODDERPAUSE_DONE); }
static void get_far(void) { is(fodderpause_get(seat, 5, 2, 38).code, FODDERPAUSE_DONE); }
static void get_cell(void) { is(fodderpause_get(seat, 5, 3, 62).code, FODDERPAUSE_DONE); }
static void get_cell_object(void) { is(fodderpause_get(seat, 5, 3, 63).code, FODDERPAUSE_DONE); }
static void set_number(void) { is(fodderpause_set(seat, 1, 0, 4).code, FODDERPAUSE_DONE); }
static void set_object(void) { is(fodderpause_set(seat, 1, 1, 2).code, FODDERPAUSE_DONE); }
static void set_far(void) { is(fodderpause_set(seat, 2, 38, 4).code, FODDERPAUSE_DONE); }
static void set_cell(void) { is(fodderpause_set(seat, 3, 62, 4).code, FODDERPAUSE_DONE); }
static void cas_number(void) { is(fodderpause_cas(seat, 1, 0, 4, 4).code, FODDERPAUSE_DONE); }
static void cas_object(void) { is(fodderpause_cas(seat, 1, 1, 2, 2).code, FODDERPAUSE_DONE); }
static void cas_cell(void) { is(fodderpause_cas(seat, 3, 62, 4, 4).code, FODDERPAUSE_DONE); }
static void load_number(void) { is(fodderpause_load_number(seat, 5, 9).code, FODDERPAUSE_DONE); }
static void nil(void) { is(fodderpause_nil(seat, 5).code, FODDERPAUSE_DONE); }
static void copy(void) { is(fodderpause_copy(seat, 5, 1).code, FODDERPAUSE_DONE); }
static void same(void) { is(fodderpause_same(seat, 1, 2).code, FODDERPAUSE_DONE); }
static void length(void) { is(fodderpause_length(seat, 3).code, FODDERPAUSE_DONE); }
static void poll(void) { is(fodderpause_poll(seat).code, FODDERPAUSE_DONE); }
static void new_record(void) { is(fodderpause_new_record(seat, 5, 2).code, FODDERPAUSE_DONE); }
static void get_of_number(void) { is(fodderpause_get(seat, 5, 4, 0).code, FODDERPAUSE_NO_OBJECT); }
static void get_outside(void) { is(fodderpause_get(seat, 5, 1, 2).code, FODDERPAUSE_NO_FIELD); }

typedef struct kind {
    const char *name;
    void (*call)(void);
    bool barrier;
} kind;

static const kind kinds[] = {
    {"get", get_number, false},
    {"get-object", get_object, false},
    {"get-far", get_far, false},
    {"get-cell", get_cell, false},
    {"get-cell-object", get_cell_object, false},
    {"set", set_number, false},
    {"set-object", set_object, false},
    {"set-far", set_far, false},
    {"set-cell", set_cell, false},
    {"set-barrier", set_object, true},
    {"cas", cas_number, false},
    {"cas-cell", cas_cell, false},
    {"cas-barrier", cas_object, true},
    {"num", load_number, false},
    {"nil", nil, false},
    {"copy", copy, false},
    {"same", same, false},
    {"len", length, false},
    {"poll", poll, false},
    {"record", new_record, false},
    {"no-object", get_of_number, false},
    {"no-field", get_outside, false},
};

int main(int count, char **words)
{
    if (count != 3) {
        return 2;
    }
    for (size_t k = 0; k < sizeof kinds / sizeof kinds[0]; k++) {
        if (strcmp(words[1], kinds[k].name) != 0) {
            continue;
        }
        open_heap();
        if (kinds[k].barrier) {
            put_barrier_on();
        }
        for (long left = atol(words[2]); left > 0; left--) {
            kinds[k].call();
        }
        return 0;
    }
    return 2;
}
