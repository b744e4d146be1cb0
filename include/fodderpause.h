/*
 * Fodderpause: a heap of fixed size for up to sixteen seats (mutators), with a garbage collector that works beside them.
 *
 * Link with libfodderpause.a (`make lib` puts it, and this header, into lib/). The library starts no thread and takes no lock.
 *
 *     fodderpause_collector collector = FODDERPAUSE_NO_COLLECTOR;
 *     fodderpause_seat seats[2] = {FODDERPAUSE_NO_SEAT, FODDERPAUSE_NO_SEAT};
 *     if (fodderpause_make(64, 0, 32, &collector, seats, 2) != FODDERPAUSE_DONE) ...
 *     fodderpause_made made = fodderpause_new_record(&seats[0], 1, 2);
 *
 * A seat has sixteen registers, numbered 0 to 15, which are the roots of its objects. Register 0 holds the board, a record of 1 to 47 fields that
 * is there from the start and that all seats share; the register is only read. What no register holds, and no field of what is held, is garbage.
 *
 * What the library owes is proved, and it is owed to those who keep these duties, which nothing checks:
 *
 *   A handle, which is a fodderpause_seat or a fodderpause_collector, begins with nothing behind it: all its bytes are 0. From then on they are the
 *   library's: it is not written, not copied, and not let go while there is a party behind it. It may be moved where no call has it: the old bytes are
 *   then no handle any more.
 *   A handle is in one call at a time. It goes from one thread to another by a lock, by a thread's start or join, or by a sequentially
 *   consistent atomic. Handles of one heap may be in calls of several threads at once: that is what they are for.
 *   A seat is folded in with the collector that was made with it.
 *   Pointers are valid: of a handle, or of as many handles as are said. The handles of one call are different ones.
 *   No call is made from a signal handler, nor in the forked child of a process with threads.
 *   malloc, realloc and free are of one allocator, and a block is aligned to each power of two up to 16 that divides its size.
 *
 * A seat that doesn't poll stops every cycle, so a spare one, which no thread uses, has to be polled too, or to leave. Where a seat that hasn't left is
 * let go, no cycle of its heap ends any more; where the collector is let go, none does either.
 *
 * Each number is looked at whole before it is used: one that is too large is OUT_OF_RANGE, and nothing changes. What C itself cuts to the 32 bits of a
 * parameter before the call, as of the long 4294967297, can't be seen.
 *
 * No call takes memory but fodderpause_make. fodderpause_fold_in, fodderpause_close, fodderpause_drop_seat and fodderpause_drop_collector give back what
 * it took.
 */
#ifndef FODDERPAUSE_H
#define FODDERPAUSE_H

#include <stdbool.h>
#include <stddef.h>
#include <stdint.h>

#ifdef __cplusplus
extern "C" {
#endif

/* The version of what is declared here. fodderpause_version tells that of the library that is linked. */
#define FODDERPAUSE_VERSION_MAJOR 0
#define FODDERPAUSE_VERSION_MINOR 1
#define FODDERPAUSE_VERSION_PATCH 0
#define FODDERPAUSE_VERSION (FODDERPAUSE_VERSION_MAJOR * 1000000 + FODDERPAUSE_VERSION_MINOR * 1000 + FODDERPAUSE_VERSION_PATCH)

/* A call that can be refused: its result is looked at. */
#if defined __GNUC__
#define FODDERPAUSE_LOOK __attribute__((warn_unused_result))
#else
#define FODDERPAUSE_LOOK
#endif

/* What a call came to. Where several causes stand, the first of them in the order of the call's own list is told. */
typedef enum fodderpause_code {
    FODDERPAUSE_DONE = 0,
    FODDERPAUSE_NO_MEMORY = 1,
    FODDERPAUSE_NO_PARTY = 2,     /* there is nothing behind the handle, or a party of the other kind */
    FODDERPAUSE_IS_HELD = 3,      /* there is something behind a handle that was to have nothing */
    FODDERPAUSE_OUT_OF_RANGE = 4, /* a number */
    FODDERPAUSE_HAS_LEFT = 5,     /* the seat */
    FODDERPAUSE_NAMES_SPENT = 6,  /* the seat has made 4,294,967,295 objects */
    FODDERPAUSE_SETS_SPENT = 7,   /* the seat has set, or swapped, 2^63 - 1 times */
    FODDERPAUSE_ENTRIES_SPENT = 8, /* the collector has told nearly 2^64 entries; a seat's are not counted */
    FODDERPAUSE_NOT_FOUND = 9,    /* a collect notes only what it found */
    FODDERPAUSE_HAS_NOT_LEFT = 10,
    FODDERPAUSE_NOT_FOLDED = 11,  /* a seat has yet to be folded in */
    FODDERPAUSE_NO_OBJECT = 12,   /* the register holds no object */
    FODDERPAUSE_NO_FIELD = 13,    /* the object is shorter */
    FODDERPAUSE_FULL = 14,        /* too few fragments */
    FODDERPAUSE_SPINE_FULL = 15   /* too few spine words */
} fodderpause_code;

/* What a cell holds. */
typedef enum fodderpause_kind {
    FODDERPAUSE_NIL = 0,
    FODDERPAUSE_NUMBER = 1,
    FODDERPAUSE_OBJECT = 2,
    FODDERPAUSE_BOARD = 3
} fodderpause_kind;

/* What a turn came to. */
typedef enum fodderpause_turn_kind {
    FODDERPAUSE_STEPPED = 0,
    FODDERPAUSE_WAITS = 1,
    FODDERPAUSE_ENDED = 2
} fodderpause_turn_kind;

/* A seat, or none. */
typedef struct fodderpause_seat {
    void *party;
    bool held;
} fodderpause_seat;

/* A collector, or none. */
typedef struct fodderpause_collector {
    void *party;
    bool held;
} fodderpause_collector;

/* Handles with nothing behind them, to begin with. */
#define FODDERPAUSE_NO_SEAT { NULL, false }
#define FODDERPAUSE_NO_COLLECTOR { NULL, false }

/* The same, to assign. */
static inline fodderpause_seat fodderpause_no_seat(void)
{
    fodderpause_seat none = FODDERPAUSE_NO_SEAT;
    return none;
}

static inline fodderpause_collector fodderpause_no_collector(void)
{
    fodderpause_collector none = FODDERPAUSE_NO_COLLECTOR;
    return none;
}

/* An allocation: the object, by its seat and its number among that seat's; of FULL and SPINE_FULL what was needed and what was found or in use. */
typedef struct fodderpause_made {
    uint32_t code;
    uint32_t seat;
    uint32_t count;
    uint32_t need;
    uint32_t found;
} fodderpause_made;

/*
 * A cell: what it holds, its number or its object's number, its object's seat, and its stamp, which is 0 where it was never set. The n-th set of seat s
 * has the stamp (s + 1) * 2^26 + n % 2^26: after 2^26 sets a seat's stamps come again.
 */
typedef struct fodderpause_cell {
    uint32_t code;
    uint32_t kind;
    uint32_t number;
    uint32_t seat;
    uint32_t stamp;
} fodderpause_cell;

/* A compare and swap: 1 where it swapped, and the stamp that the cell had. */
typedef struct fodderpause_swap {
    uint32_t code;
    uint32_t swapped;
    uint32_t stamp;
} fodderpause_swap;

typedef struct fodderpause_number {
    uint32_t code;
    uint32_t number;
} fodderpause_number;

typedef struct fodderpause_sets_told {
    uint32_t code;
    uint64_t sets;
} fodderpause_sets_told;

typedef struct fodderpause_phase_told {
    uint32_t code;
    uint64_t phase;
} fodderpause_phase_told;

/* 1 where the other seat is behind; what it answered last, and the phase. */
typedef struct fodderpause_behind_told {
    uint32_t code;
    uint32_t behind;
    uint64_t answered;
    uint64_t phase;
} fodderpause_behind_told;

/* A turn: of WAITS the seat, what it answered last, and the phase; of ENDED the cycle, and how many fragments it kept. */
typedef struct fodderpause_turned {
    uint32_t code;
    uint32_t kind;
    uint64_t seat;
    uint64_t answered;
    uint64_t phase;
    uint64_t cycle;
    uint64_t kept;
} fodderpause_turned;

/* The version of the library that is linked, counted as FODDERPAUSE_VERSION. */
uint32_t fodderpause_version(void);

/*
 * Opens a heap of 1 to 4,096 groups of sixteen fragments of 32 bytes, 0 to 16,384 spine words, which arrays need, and a board of 1 to 47 fields. Its
 * collector is behind the one handle then, and its seats, numbered from 0, behind the others, of which there are 1 to 16. OUT_OF_RANGE, IS_HELD, NO_MEMORY.
 */
FODDERPAUSE_LOOK uint32_t fodderpause_make(uint32_t groups, uint32_t spine, uint32_t board, fodderpause_collector *collector, fodderpause_seat *seats, size_t count);

/*
 * Lets go what is behind the handle, whatever it is doing. The heap's memory goes with the last of its handles. A heap is let go by letting go each of
 * them; one that is to go on keeps its collector, and each of its seats till that has left. NO_PARTY.
 */
uint32_t fodderpause_drop_seat(fodderpause_seat *seat);
uint32_t fodderpause_drop_collector(fodderpause_collector *collector);

/*
 * The calls of a seat. d is 1 to 15, every other register 0 to 15, and i is at most 4,096. NO_PARTY, OUT_OF_RANGE, HAS_LEFT; of the two that
 * allocate NAMES_SPENT, of set and cas SETS_SPENT; then what is said at each.
 */

/* A record of 1 to 47 nil fields, which register d then holds. FULL. */
FODDERPAUSE_LOOK fodderpause_made fodderpause_new_record(fodderpause_seat *seat, uint32_t d, uint32_t fields);

/* An array of 1 to 4,096 nil cells, which register d then holds. SPINE_FULL, FULL. */
FODDERPAUSE_LOOK fodderpause_made fodderpause_new_array(fodderpause_seat *seat, uint32_t d, uint32_t cells);

/* Register d gets what the cell i of register r's object holds. NO_OBJECT, NO_FIELD. */
FODDERPAUSE_LOOK fodderpause_cell fodderpause_get(fodderpause_seat *seat, uint32_t d, uint32_t r, uint32_t i);

/* The cell i of register r's object gets what register v holds; the number is the stamp that was there. NO_OBJECT, NO_FIELD. */
FODDERPAUSE_LOOK fodderpause_number fodderpause_set(fodderpause_seat *seat, uint32_t r, uint32_t i, uint32_t v);

/*
 * Likewise exactly where the cell has the value and the stamp that register a was read with. So it takes a cell for unchanged into which one seat has put the
 * same value again a multiple of 2^26 of its sets later, and no other. NO_OBJECT, NO_FIELD.
 */
FODDERPAUSE_LOOK fodderpause_swap fodderpause_cas(fodderpause_seat *seat, uint32_t r, uint32_t i, uint32_t a, uint32_t v);

/* Register d gets the number n, which is below 2^30. */
FODDERPAUSE_LOOK fodderpause_number fodderpause_load_number(fodderpause_seat *seat, uint32_t d, uint64_t n);

/* Register d gets nil. */
FODDERPAUSE_LOOK fodderpause_number fodderpause_nil(fodderpause_seat *seat, uint32_t d);

/* Register d gets what register r holds. */
FODDERPAUSE_LOOK fodderpause_number fodderpause_copy(fodderpause_seat *seat, uint32_t d, uint32_t r);

/* The number is 1 where registers a and b hold the same number, the same object or nil both. */
FODDERPAUSE_LOOK fodderpause_number fodderpause_same(fodderpause_seat *seat, uint32_t a, uint32_t b);

/* The number is how many fields or cells register r's object has. NO_OBJECT. */
FODDERPAUSE_LOOK fodderpause_number fodderpause_length(fodderpause_seat *seat, uint32_t r);

/* Answers the phase. The collector can go on to the next phase only once every seat that hasn't left has answered this one. */
FODDERPAUSE_LOOK fodderpause_phase_told fodderpause_poll(fodderpause_seat *seat);

/* The seat leaves for good: it gives back what it keeps, and its registers are nil. */
FODDERPAUSE_LOOK fodderpause_number fodderpause_leave(fodderpause_seat *seat);

/* How many more objects the seat can make, and how many more sets it can do. NO_PARTY. */
FODDERPAUSE_LOOK fodderpause_number fodderpause_names_left(fodderpause_seat *seat);
FODDERPAUSE_LOOK fodderpause_sets_told fodderpause_sets_left(fodderpause_seat *seat);

/*
 * What a collect is made of: look at the phase; answer it, as a poll does; look whether another seat is behind it; and note what the collect came to.
 * NO_PARTY, HAS_LEFT; of behind OUT_OF_RANGE where the other is no other seat of the heap; of the notes NOT_FOUND.
 */
FODDERPAUSE_LOOK fodderpause_phase_told fodderpause_look(fodderpause_seat *seat);
FODDERPAUSE_LOOK fodderpause_phase_told fodderpause_answer(fodderpause_seat *seat);
FODDERPAUSE_LOOK fodderpause_behind_told fodderpause_behind(fodderpause_seat *seat, uint32_t other);

/* The cycle has ended: the first look found phase 7 * cycle or an earlier one, and the last call found 7 * (cycle + 1) or a later one. */
FODDERPAUSE_LOOK uint32_t fodderpause_note_cycle(fodderpause_seat *seat, uint64_t cycle);

/* The other seat is behind: this is what the last fodderpause_behind found. */
FODDERPAUSE_LOOK uint32_t fodderpause_note_waits(fodderpause_seat *seat, uint32_t other, uint64_t answered, uint64_t phase);

/* One turn of the collector: one step on one word. NO_PARTY, ENTRIES_SPENT. */
FODDERPAUSE_LOOK fodderpause_turned fodderpause_turn(fodderpause_collector *collector);

/*
 * So many turns of the collector in one go, or those up to the first that waits: it is told what the last of them came to, and in *made how many they are.
 * Turns in one go take less time than so many calls. Where n is 0 none is made, and a step is told. NO_PARTY; ENTRIES_SPENT where no entry
 * can be counted for each of them and for one more, as of 2^64 - 1: none is made then.
 */
FODDERPAUSE_LOOK fodderpause_turned fodderpause_turns(fodderpause_collector *collector, uint64_t n, uint64_t *made);

/* The phase: seven times the number of cycles that have ended, and how far this one is. NO_PARTY. */
FODDERPAUSE_LOOK fodderpause_phase_told fodderpause_phase(fodderpause_collector *collector);

/* The collector takes in a seat that has left: there is nothing behind the seat's handle then. NO_PARTY, HAS_NOT_LEFT. */
FODDERPAUSE_LOOK uint32_t fodderpause_fold_in(fodderpause_collector *collector, fodderpause_seat *seat);

/*
 * Closes a heap whose seats were all folded in: its words are read a last time, its memory is given back, and there is nothing behind the handle then.
 * All that its seats and its collector told goes into one order in which each answer is the one of a heap that keeps every object for ever.
 * NO_PARTY; NOT_FOLDED, at which the heap stays, and can be closed later.
 */
FODDERPAUSE_LOOK uint32_t fodderpause_close(fodderpause_collector *collector);

/* What the code says, in English. */
static inline const char *fodderpause_code_text(uint32_t code)
{
    switch (code) {
    case FODDERPAUSE_DONE: return "done";
    case FODDERPAUSE_NO_MEMORY: return "there is no memory";
    case FODDERPAUSE_NO_PARTY: return "there is no such party behind the handle";
    case FODDERPAUSE_IS_HELD: return "there is a party behind the handle";
    case FODDERPAUSE_OUT_OF_RANGE: return "a number is out of range";
    case FODDERPAUSE_HAS_LEFT: return "the seat has left";
    case FODDERPAUSE_NAMES_SPENT: return "the seat can make no more objects";
    case FODDERPAUSE_SETS_SPENT: return "the seat can do no more sets";
    case FODDERPAUSE_ENTRIES_SPENT: return "the collector can make no more turns";
    case FODDERPAUSE_NOT_FOUND: return "that was not found";
    case FODDERPAUSE_HAS_NOT_LEFT: return "the seat has not left";
    case FODDERPAUSE_NOT_FOLDED: return "a seat was not folded in";
    case FODDERPAUSE_NO_OBJECT: return "the register holds no object";
    case FODDERPAUSE_NO_FIELD: return "the object has no such field";
    case FODDERPAUSE_FULL: return "fragments are too few";
    case FODDERPAUSE_SPINE_FULL: return "spine words are too few";
    default: return "no code of this library";
    }
}

/*
 * Allocation that collects where it is refused.
 *
 * What is garbage when a call is refused is free once a cycle has ended that began after that, and the cycle that is on began before. So a seat polls, and
 * calls again after each poll; where a poll told a phase that is far enough behind the first one, and the call after it is refused too, the heap is full.
 * The other order, a call and then the poll, stops too early where the thread polls elsewhere too: whole cycles may end between the two.
 */

/* How many ends of cycles a refused call waits for. Where no other seat allocates, 2 are enough. Where others do, they may take what a cycle freed before
   this seat comes to it, and the call is refused though there is room: the more cycles it waits for, the seldomer. A program may say how many. */
#ifndef FODDERPAUSE_CYCLES
#define FODDERPAUSE_CYCLES 4
#endif

/* What a thread does between two polls. A program may say what, as sched_yield(). */
#ifndef FODDERPAUSE_REST
#define FODDERPAUSE_REST() ((void) 0)
#endif

/* How long a refused call waits: whether it has begun to, the phase at which it ends, and whether that has come. All its bytes are 0 at first. */
typedef struct fodderpause_patience {
    bool begun;
    bool over;
    uint64_t end;
} fodderpause_patience;

/* Whether a call with this code is to be made again: where it was refused as full and the patience isn't over. The seat has answered the phase then. */
static inline bool fodderpause_calls_again(fodderpause_seat *seat, uint32_t code, fodderpause_patience *patience)
{
    if ((code != FODDERPAUSE_FULL && code != FODDERPAUSE_SPINE_FULL) || patience->over) {
        return false;
    }
    if (patience->begun) {
        FODDERPAUSE_REST();
    }
    fodderpause_phase_told told = fodderpause_poll(seat);
    if (told.code != FODDERPAUSE_DONE) {
        return false;
    }
    if (!patience->begun) {
        patience->begun = true;
        patience->end = 7 * (told.phase / 7 + FODDERPAUSE_CYCLES);
    }
    patience->over = told.phase >= patience->end;
    return true;
}

/*
 * As fodderpause_new_record and fodderpause_new_array, beside a thread that makes the collector's turns. FULL and SPINE_FULL are answered only after
 * FODDERPAUSE_CYCLES ends of cycles. No call comes back before that where the collector makes no turns, or another seat doesn't poll.
 */
FODDERPAUSE_LOOK static inline fodderpause_made fodderpause_new_record_or_collect(fodderpause_seat *seat, uint32_t d, uint32_t fields)
{
    fodderpause_patience patience = {false, false, 0};
    fodderpause_made made = fodderpause_new_record(seat, d, fields);
    while (fodderpause_calls_again(seat, made.code, &patience)) {
        made = fodderpause_new_record(seat, d, fields);
    }
    return made;
}

FODDERPAUSE_LOOK static inline fodderpause_made fodderpause_new_array_or_collect(fodderpause_seat *seat, uint32_t d, uint32_t cells)
{
    fodderpause_patience patience = {false, false, 0};
    fodderpause_made made = fodderpause_new_array(seat, d, cells);
    while (fodderpause_calls_again(seat, made.code, &patience)) {
        made = fodderpause_new_array(seat, d, cells);
    }
    return made;
}

/*
 * Makes turns, 256 in one go, until the cycle that is on has ended and so at most 255 of the next one, and polls each seat that a turn waits for. It is for a thread that has the collector and all seats of the
 * heap, in the order in which they were made. NO_PARTY, also where a seat is waited for that isn't there; ENTRIES_SPENT.
 */
FODDERPAUSE_LOOK static inline uint32_t fodderpause_end_cycle(fodderpause_collector *collector, fodderpause_seat *seats, size_t count)
{
    fodderpause_phase_told began = fodderpause_phase(collector);
    if (began.code != FODDERPAUSE_DONE) {
        return began.code;
    }
    for (;;) {
        uint64_t made;
        fodderpause_turned turned = fodderpause_turns(collector, 256, &made);
        if (turned.code != FODDERPAUSE_DONE || fodderpause_phase(collector).phase / 7 > began.phase / 7) {
            return turned.code;
        }
        if (turned.kind == FODDERPAUSE_WAITS) {
            uint32_t code = turned.seat < count ? fodderpause_poll(&seats[turned.seat]).code : (uint32_t) FODDERPAUSE_NO_PARTY;
            if (code != FODDERPAUSE_DONE) {
                return code;
            }
        }
    }
}

/*
 * As fodderpause_new_record and fodderpause_new_array by the seat of this number, for a thread that has the collector and all seats of the heap, in the order
 * in which they were made. FULL and SPINE_FULL are answered only where two ends of cycles left too little. Where a cycle can't end, that is the code.
 */
FODDERPAUSE_LOOK static inline fodderpause_made fodderpause_new_record_with_turns(fodderpause_collector *collector, fodderpause_seat *seats, size_t count, size_t number, uint32_t d, uint32_t fields)
{
    fodderpause_made made = fodderpause_new_record(&seats[number], d, fields);
    for (int cycles = 0; cycles < 2 && made.code == FODDERPAUSE_FULL; cycles++) {
        uint32_t code = fodderpause_end_cycle(collector, seats, count);
        if (code != FODDERPAUSE_DONE) {
            fodderpause_made refused = {code, 0, 0, 0, 0};
            return refused;
        }
        made = fodderpause_new_record(&seats[number], d, fields);
    }
    return made;
}

FODDERPAUSE_LOOK static inline fodderpause_made fodderpause_new_array_with_turns(fodderpause_collector *collector, fodderpause_seat *seats, size_t count, size_t number, uint32_t d, uint32_t cells)
{
    fodderpause_made made = fodderpause_new_array(&seats[number], d, cells);
    for (int cycles = 0; cycles < 2 && (made.code == FODDERPAUSE_FULL || made.code == FODDERPAUSE_SPINE_FULL); cycles++) {
        uint32_t code = fodderpause_end_cycle(collector, seats, count);
        if (code != FODDERPAUSE_DONE) {
            fodderpause_made refused = {code, 0, 0, 0, 0};
            return refused;
        }
        made = fodderpause_new_array(&seats[number], d, cells);
    }
    return made;
}

#ifdef __cplusplus
}
#endif

#endif
