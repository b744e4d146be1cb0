/* What the programs of bench/fragments share. Each fills a space of 2 MiB with objects of one size, which are chained, drops half of them, and asks for larger ones until one is refused. Its words are how many
   cells of 8 bytes an object has, the larger one (0 where none is asked for), and `other` or `half`: every other one is dropped, or each that is drawn. It prints how many were made, dropped and given. */
#ifndef FRAGMENTS_H
#define FRAGMENTS_H

#include "timing.h"

#include <stdbool.h>
#include <stdlib.h>
#include <string.h>

enum { SPACE = 2 << 20 };

/* What each program has of its own: the space; an object behind the last of the chain, and whether there was room for it; the objects that go taken out of the chain, and how many; and all that is dropped made free. */
static void open_space(void);
static bool append(unsigned cells);
static unsigned thin(bool (*goes)(void));
static void collect(void);

static bool is_random;
static uint32_t state = 1;

/* Whether the next object of the chain goes. The first stays, so that the chain keeps its head. */
static bool goes(void)
{
    static unsigned passed;
    unsigned place = passed++;
    return place > 0 && (is_random ? drawn(&state) % 2 : place % 2) == 1;
}

static unsigned append_all(unsigned cells)
{
    unsigned count = 0;
    while (append(cells)) {
        count++;
    }
    return count;
}

int main(int count, char **words)
{
    static char buffer[BUFSIZ];
    setvbuf(stdout, buffer, _IOFBF, sizeof buffer);
    if (count != 4) {
        return 2;
    }
    unsigned larger = (unsigned) atoi(words[2]);
    is_random = strcmp(words[3], "half") == 0;
    open_space();
    unsigned made = append_all((unsigned) atoi(words[1]));
    unsigned dropped = 0;
    unsigned given = 0;
    if (larger > 0) {
        dropped = thin(goes);
        collect();
        given = append_all(larger);
    }
    printf("%u %u %u\n", made, dropped, given);
    return 0;
}

#endif
