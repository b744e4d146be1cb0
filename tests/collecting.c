/* Whether the calls that collect come back where a heap is full, and only there. Says a line for each answer that is otherwise, and nothing where all is well. */
static void end_a_cycle(void);

/* Between two polls of a waiting call a whole cycle ends. */
#define FODDERPAUSE_CYCLES 2
#define FODDERPAUSE_REST() end_a_cycle()
#include "fodderpause.h"

#include <stdio.h>

/* Of the 16 fragments the board has one; a record of 44 fields takes the others, and an array of 32 cells all eight spine words. */
enum { ALL_FIELDS = 44, ALL_CELLS = 32 };

static fodderpause_collector collector = FODDERPAUSE_NO_COLLECTOR;
static fodderpause_seat seats[2] = {FODDERPAUSE_NO_SEAT, FODDERPAUSE_NO_SEAT};
static int failed;

static void is(const char *what, unsigned long long got, unsigned long long wanted)
{
    if (got != wanted) {
        printf("%s: %llu, and not %llu\n", what, got, wanted);
        failed = 1;
    }
}

static void end_a_cycle(void)
{
    is("a cycle ends", fodderpause_end_cycle(&collector, seats, 2), FODDERPAUSE_DONE);
}

/* Register 1 holds what fills the heap. Where it is dropped in the middle of a cycle, which has marked it, it is garbage that this cycle keeps. */
static void open_full(bool is_array, bool is_dropped)
{
    is("open", fodderpause_make(1, 8, 1, &collector, seats, 2), FODDERPAUSE_DONE);
    is("the other leaves", fodderpause_leave(&seats[1]).code, FODDERPAUSE_DONE);
    is("filled", is_array ? fodderpause_new_array(&seats[0], 1, ALL_CELLS).code : fodderpause_new_record(&seats[0], 1, ALL_FIELDS).code, FODDERPAUSE_DONE);
    while (is_dropped && fodderpause_phase(&collector).phase < 4) {
        fodderpause_turned turned = fodderpause_turn(&collector);
        if (turned.kind == FODDERPAUSE_WAITS) {
            is("a poll", fodderpause_poll(&seats[0]).code, FODDERPAUSE_DONE);
        }
    }
    if (is_dropped) {
        is("dropped", fodderpause_nil(&seats[0], 1).code, FODDERPAUSE_DONE);
    }
}

static void let_go(void)
{
    is("let go", fodderpause_drop_seat(&seats[0]), FODDERPAUSE_DONE);
    is("let go", fodderpause_drop_seat(&seats[1]), FODDERPAUSE_DONE);
    is("let go", fodderpause_drop_collector(&collector), FODDERPAUSE_DONE);
}

static uint32_t make_again(bool is_array)
{
    return is_array ? fodderpause_new_array(&seats[0], 2, ALL_CELLS).code : fodderpause_new_record(&seats[0], 2, ALL_FIELDS).code;
}

/* What is in use fills the heap: two cycles end, and that is told. */
static void fill(bool is_array, uint32_t full)
{
    open_full(is_array, false);
    is("full", is_array ? fodderpause_new_array_or_collect(&seats[0], 2, ALL_CELLS).code : fodderpause_new_record_or_collect(&seats[0], 2, ALL_FIELDS).code, full);
    is("after two cycles", fodderpause_phase(&collector).phase, 14);
    is("full by turns", is_array ? fodderpause_new_array_with_turns(&collector, seats, 2, 0, 2, ALL_CELLS).code : fodderpause_new_record_with_turns(&collector, seats, 2, 0, 2, ALL_FIELDS).code, full);
    is("after four", fodderpause_phase(&collector).phase, 28);
    let_go();
}

/* Garbage fills it: the cycle that is on keeps it, and the next one frees it. */
static void free_garbage(bool is_array, uint32_t full)
{
    open_full(is_array, true);
    is("refused", make_again(is_array), full);
    is("made", is_array ? fodderpause_new_array_or_collect(&seats[0], 2, ALL_CELLS).code : fodderpause_new_record_or_collect(&seats[0], 2, ALL_FIELDS).code, FODDERPAUSE_DONE);
    let_go();
    open_full(is_array, true);
    is("made by turns", is_array ? fodderpause_new_array_with_turns(&collector, seats, 2, 0, 2, ALL_CELLS).code : fodderpause_new_record_with_turns(&collector, seats, 2, 0, 2, ALL_FIELDS).code, FODDERPAUSE_DONE);
    is("in the second cycle", fodderpause_phase(&collector).phase, 14);
    let_go();
}

/* The other order: a call, and then the poll by which it stops. It stops though the next call is made. */
static void stop_too_early(bool is_array, uint32_t full)
{
    open_full(is_array, true);
    uint32_t code = make_again(is_array);
    uint64_t end = 7 * (fodderpause_poll(&seats[0]).phase / 7 + 2);
    for (uint64_t phase = 0; code == full && phase < end;) {
        code = make_again(is_array);
        end_a_cycle();
        phase = fodderpause_poll(&seats[0]).phase;
    }
    is("stopped", code, full);
    is("though there was room", make_again(is_array), FODDERPAUSE_DONE);
    let_go();
}

/* A seat that hasn't left, and was let go, is waited for without end, and that is told. */
static void miss_a_seat(void)
{
    is("open", fodderpause_make(1, 0, 1, &collector, seats, 2), FODDERPAUSE_DONE);
    is("filled", fodderpause_new_record(&seats[0], 1, ALL_FIELDS).code, FODDERPAUSE_DONE);
    is("let go", fodderpause_drop_seat(&seats[1]), FODDERPAUSE_DONE);
    is("no cycle ends", fodderpause_end_cycle(&collector, seats, 2), FODDERPAUSE_NO_PARTY);
    is("none ends with fewer seats", fodderpause_end_cycle(&collector, seats, 1), FODDERPAUSE_NO_PARTY);
    is("nor for a record", fodderpause_new_record_with_turns(&collector, seats, 2, 0, 2, 2).code, FODDERPAUSE_NO_PARTY);
    is("let go", fodderpause_drop_seat(&seats[0]), FODDERPAUSE_DONE);
    is("let go", fodderpause_drop_collector(&collector), FODDERPAUSE_DONE);
}

int main(void)
{
    for (int kind = 0; kind < 2; kind++) {
        uint32_t full = kind == 0 ? FODDERPAUSE_FULL : FODDERPAUSE_SPINE_FULL;
        fill(kind == 1, full);
        free_garbage(kind == 1, full);
        stop_too_early(kind == 1, full);
    }
    miss_a_seat();
    return failed;
}
