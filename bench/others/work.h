/* How much of each kind of work is timed; the same everywhere. */
#ifndef WORK_H
#define WORK_H

enum {
    RECORDS = 1000000, /* of two fields, of which each drops the one before */
    FIELDS = 8192,     /* gets or sets in a row */
    ARRAYS = 10000,    /* that are filled, read and dropped */
    CELLS = 64,
    DEPTH = 12, /* of a tree of 8,191 records */
    TREES = 20,
    SHELVES = 6, /* of a live set, with so many records each: 24,576 records in all */
    SHELF = 4096,
    REPLACED = 500000, /* records of it, one after another, drawn */
    SINGLE = 10000000, /* records that are timed one by one */
    MOST_THREADS = 4
};

#endif
