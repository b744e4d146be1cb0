/* A list of numbers, and a table of strings of which each cell holds three bytes, in one thread. */
#include "alone.h"

#include <string.h>

enum { LIST = 1, NODE, VALUE, TABLE, STRING };

/* A node's fields. */
enum { ITS_VALUE, ITS_NEXT };

static const char *const WORDS[] = {"fragment", "spine", "seat", "board", "a row of words that never changes"};
enum { WORD_COUNT = sizeof WORDS / sizeof WORDS[0] };

/* Puts the number in front of the list. */
static void put_in_front(uint32_t n)
{
    new_record(NODE, 2);
    num(&seat, VALUE, n);
    set(&seat, NODE, ITS_VALUE, VALUE);
    set(&seat, NODE, ITS_NEXT, LIST);
    copy(&seat, LIST, NODE);
}

/* The sum of the list's numbers. */
static uint32_t sum(void)
{
    uint32_t total = 0;
    copy(&seat, NODE, LIST);
    while (fodderpause_length(&seat, NODE).code == FODDERPAUSE_DONE) {
        total += get(&seat, VALUE, NODE, ITS_VALUE).number;
        get(&seat, NODE, NODE, ITS_NEXT);
    }
    return total;
}

/* Makes an array of the string: its length in bytes, and behind that three bytes a cell. */
static void make_string(uint32_t d, const char *text)
{
    size_t length = strlen(text);
    uint32_t cells = (uint32_t) ((length + 2) / 3);
    new_array(d, cells + 1);
    num(&seat, VALUE, (uint32_t) length);
    set(&seat, d, 0, VALUE);
    for (size_t at = 0; at < length; at += 3) {
        uint32_t three = 0;
        for (size_t k = at; k < at + 3 && k < length; k++) {
            three |= (uint32_t) (unsigned char) text[k] << (8 * (k - at));
        }
        num(&seat, VALUE, three);
        set(&seat, d, (uint32_t) (at / 3 + 1), VALUE);
    }
}

/* Writes the string. */
static void print_string(uint32_t r)
{
    uint32_t length = get(&seat, VALUE, r, 0).number;
    for (uint32_t at = 0; at < length; at++) {
        uint32_t three = get(&seat, VALUE, r, at / 3 + 1).number;
        putchar((int) (three >> (8 * (at % 3)) & 0xff));
    }
    putchar('\n');
}

int main(void)
{
    done(fodderpause_make(8, 64, 32, &collector, &seat, 1));

    nil(&seat, LIST);
    for (uint32_t n = 1; n <= 10; n++) {
        put_in_front(n);
    }
    printf("the list's sum: %u\n", (unsigned) sum());

    /* The table is on the board, which is a root as well. */
    new_array(TABLE, WORD_COUNT);
    set(&seat, BOARD, 0, TABLE);
    for (uint32_t k = 0; k < WORD_COUNT; k++) {
        make_string(STRING, WORDS[k]);
        set(&seat, TABLE, k, STRING);
    }
    nil(&seat, TABLE);
    nil(&seat, STRING);

    /* Lists that are dropped at once: the heap has 128 fragments, and they take 1,000. */
    for (uint32_t n = 1; n <= 100; n++) {
        nil(&seat, LIST);
        for (uint32_t k = 0; k < 10; k++) {
            put_in_front(n);
        }
    }
    printf("the last list's sum: %u\n", (unsigned) sum());

    get(&seat, TABLE, BOARD, 0);
    uint32_t words = fodderpause_length(&seat, TABLE).number;
    for (uint32_t k = 0; k < words; k++) {
        get(&seat, STRING, TABLE, k);
        print_string(STRING);
    }

    close_heap();
    puts("closed");
    return 0;
}
