/* Tries each function of fodderpause_tools.h over a small heap. Says a line for each that is otherwise, and nothing where all is well. */
#include "fodderpause_tools.h"

#include <stdio.h>

enum { BOARD, ROOTS, TEXT, ITEM, SCRATCH };

static fodderpause_collector collector = FODDERPAUSE_NO_COLLECTOR;
static fodderpause_seat seat = FODDERPAUSE_NO_SEAT;
static int failed;

static void is(const char *what, unsigned long long got, unsigned long long wanted)
{
    if (got != wanted) {
        printf("%s: %llu, and not %llu\n", what, got, wanted);
        failed = 1;
    }
}

/* The number in a register, by way of the board; 1,000,000 where it holds none. */
static uint32_t number(uint32_t r)
{
    is("a set", fodderpause_set(&seat, BOARD, 0, r).code, FODDERPAUSE_DONE);
    fodderpause_cell cell = fodderpause_get(&seat, SCRATCH, BOARD, 0);
    return cell.kind == FODDERPAUSE_NUMBER ? cell.number : 1000000;
}

static void end_cycles(int cycles)
{
    while (cycles > 0) {
        fodderpause_turned turned = fodderpause_turn(&collector);
        cycles -= turned.kind == FODDERPAUSE_ENDED;
        if (turned.kind == FODDERPAUSE_WAITS) {
            is("a poll", fodderpause_poll(&seat).code, FODDERPAUSE_DONE);
        }
    }
}

/* Three numbers are pushed; they come back last first, and neither more nor fewer. */
static void push_and_pop(void)
{
    fodderpause_roots roots;
    is("a stack of 8", fodderpause_roots_make(&roots, &seat, ROOTS, 8), FODDERPAUSE_DONE);
    is("nothing to pop", fodderpause_pop(&roots, ITEM), FODDERPAUSE_NO_FIELD);
    is("nothing to peek at", fodderpause_peek(&roots, ITEM, 0), FODDERPAUSE_NO_FIELD);
    for (uint32_t n = 10; n < 13; n++) {
        is("a number", fodderpause_load_number(&seat, ITEM, n).code, FODDERPAUSE_DONE);
        is("a push", fodderpause_push(&roots, ITEM), FODDERPAUSE_DONE);
    }
    is("a peek", fodderpause_peek(&roots, ITEM, 2), FODDERPAUSE_DONE);
    is("the first", number(ITEM), 10);
    is("a peek below all", fodderpause_peek(&roots, ITEM, 3), FODDERPAUSE_NO_FIELD);
    for (uint32_t n = 13; n-- > 10;) {
        is("a pop", fodderpause_pop(&roots, ITEM), FODDERPAUSE_DONE);
        is("what was pushed last", number(ITEM), n);
    }
    is("all were popped", fodderpause_pop(&roots, ITEM), FODDERPAUSE_NO_FIELD);
    for (int k = 0; k < 8; k++) {
        is("a push", fodderpause_push(&roots, ITEM), FODDERPAUSE_DONE);
    }
    is("a ninth push", fodderpause_push(&roots, ITEM), FODDERPAUSE_NO_FIELD);
    is("how many there are", roots.depth, 8);
}

/* What was popped stays a root until the stack is cleared: of a heap of 32 fragments the record behind the stack takes 16. */
static void clear(void)
{
    fodderpause_roots roots;
    is("a stack of 4", fodderpause_roots_make(&roots, &seat, ROOTS, 4), FODDERPAUSE_DONE);
    is("a record", fodderpause_new_record(&seat, ITEM, 47).code, FODDERPAUSE_DONE);
    is("a push", fodderpause_push(&roots, ITEM), FODDERPAUSE_DONE);
    is("a pop", fodderpause_pop(&roots, ITEM), FODDERPAUSE_DONE);
    is("the register's nil", fodderpause_nil(&seat, ITEM).code, FODDERPAUSE_DONE);
    end_cycles(2);
    is("what was popped is there", fodderpause_new_record(&seat, ITEM, 47).code, FODDERPAUSE_FULL);
    is("a clearing", fodderpause_roots_clear(&roots, SCRATCH), FODDERPAUSE_DONE);
    end_cycles(2);
    is("what was cleared is gone", fodderpause_new_record(&seat, ITEM, 47).code, FODDERPAUSE_DONE);
    is("the register's nil", fodderpause_nil(&seat, ITEM).code, FODDERPAUSE_DONE);
    is("the stack's nil", fodderpause_nil(&seat, ROOTS).code, FODDERPAUSE_DONE);
    end_cycles(2);
}

/* Bytes come back as they were made, for each length up to 20, cut where there is less room. */
static void bytes(void)
{
    unsigned char from[20];
    unsigned char to[20];
    size_t length = 99;
    for (size_t k = 0; k < sizeof from; k++) {
        from[k] = (unsigned char) (255 - 12 * k);
    }
    for (size_t most = 0; most <= sizeof from; most++) {
        is("bytes", fodderpause_bytes_make(&seat, TEXT, SCRATCH, from, most), FODDERPAUSE_DONE);
        memset(to, 0, sizeof to);
        is("a read", fodderpause_bytes_read(&seat, TEXT, SCRATCH, to, sizeof to, &length), FODDERPAUSE_DONE);
        is("how many", length, most);
        is("the same", (unsigned long long) memcmp(from, to, most), 0);
        is("nothing behind them", most < sizeof to ? to[most] : 0, 0);
        end_cycles(2);
    }
    is("bytes", fodderpause_bytes_make(&seat, TEXT, SCRATCH, from, 7), FODDERPAUSE_DONE);
    memset(to, 0, sizeof to);
    is("a short read", fodderpause_bytes_read(&seat, TEXT, SCRATCH, to, 4, &length), FODDERPAUSE_DONE);
    is("how many in all", length, 7);
    is("the fourth", to[3], from[3]);
    is("no fifth", to[4], 0);
    is("too many bytes", fodderpause_bytes_make(&seat, TEXT, SCRATCH, from, FODDERPAUSE_MOST_BYTES + 1), FODDERPAUSE_OUT_OF_RANGE);
    is("one register for both", fodderpause_bytes_make(&seat, TEXT, TEXT, from, 1), FODDERPAUSE_OUT_OF_RANGE);
    is("no array", fodderpause_bytes_length(&seat, ITEM, SCRATCH, &length), FODDERPAUSE_NO_OBJECT);
}

static void strings(void)
{
    char text[8];
    end_cycles(2);
    is("a string", fodderpause_string_make(&seat, TEXT, SCRATCH, "spines"), FODDERPAUSE_DONE);
    is("a read", fodderpause_string_read(&seat, TEXT, SCRATCH, text, sizeof text), FODDERPAUSE_DONE);
    is("the same", (unsigned long long) strcmp(text, "spines"), 0);
    is("a short read", fodderpause_string_read(&seat, TEXT, SCRATCH, text, 4), FODDERPAUSE_DONE);
    is("its first three", (unsigned long long) strcmp(text, "spi"), 0);
    is("no room", fodderpause_string_read(&seat, TEXT, SCRATCH, text, 0), FODDERPAUSE_OUT_OF_RANGE);
}

int main(void)
{
    is("a heap", fodderpause_make(2, 16, 1, &collector, &seat, 1), FODDERPAUSE_DONE);
    push_and_pop();
    is("the stack's nil", fodderpause_nil(&seat, ROOTS).code, FODDERPAUSE_DONE);
    end_cycles(2);
    clear();
    bytes();
    strings();
    is("a leave", fodderpause_leave(&seat).code, FODDERPAUSE_DONE);
    is("a fold", fodderpause_fold_in(&collector, &seat), FODDERPAUSE_DONE);
    is("a close", fodderpause_close(&collector), FODDERPAUSE_DONE);
    return failed;
}
