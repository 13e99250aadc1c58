/* RothC soil carbon in whole grams: the proved functions, for C and for whatever calls C.
 *
 *     cc -Iinclude program.c target/library/librothc.a
 *
 * builds a program: nothing else has to be linked but the C library that cc links anyway.
 * examples/library builds the archive (and a shared object) and runs a program in C, Rust and
 * Python over it. The archive is for x86-64 Linux.
 *
 * Units. Carbon is in whole grams a hectare (a tonne is 1,000,000 g). Rain and evaporation are in
 * tenths of a millimetre, temperature in tenths of a degree Celsius, clay in tenths of a percent,
 * depth in whole centimetres. The soil moisture deficit is in parts, 2,070,000 to the millimetre.
 * Evaporation is an open pan's, of which 0.75 counts, or potential evapotranspiration, of which all
 * does: the number after it says which.
 *
 * Radiocarbon (docs/RADIOCARBON.md). Modern grams are grams of carbon times their activity, which
 * is counted in thousandths: fresh carbon of activity 1000 has as many modern grams as grams.
 *
 * Memory. The caller lends all memory, as a pointer and a length counted in elements (not in
 * bytes); the library keeps, allocates and shares nothing between calls, so that calls on different
 * memory can run at the same time. (The months that can be taken back stand in the lent state.)
 * Each pointer points to as many elements as its length says, also where that is 0, and is not
 * null. Memory that a call may write (a pointer without const) overlaps no other memory that the
 * same call is lent. This the caller has to see to: everything else is checked, and refused with a
 * number, except the kept states (see "A state").
 *
 * Answers. Each call that isn't for a survival number returns 0 where it did what it was asked, one
 * of the refusals below where it did not, or ROTHC_SHAPE where memory of a fixed layout (soil,
 * state, entries, row, result, report) has another length. What a refused call leaves in the memory
 * is said at each function. With ROTHC_SHAPE it leaves everything as it was.
 */
#ifndef ROTHC_H
#define ROTHC_H

#include <stddef.h>
#include <stdint.h>

#ifdef __cplusplus
extern "C" {
#endif

/* What a call can return. The refusals have the numbers of the program's REFUSED line. Of several
 * that apply, the first in checking order is returned: docs/REFUSALS.md has the order of each call.
 * In a list or a spin-up the earliest month with a fault comes first, in a book or a table the
 * earliest line. (rothc_book asks ROOM last; ROTHC_SHAPE comes before everything.) */
enum {
  ROTHC_DONE = 0,
  ROTHC_BOOK_LENGTH = 1,   /* the book is longer than 65,536 bytes */
  ROTHC_LINE = 2,          /* a line of the book is missing or isn't of its form */
  ROTHC_ROWS = 3,          /* SOIL's count isn't 1, another count or a number of rows is outside
                              1 to 1,200, or a list isn't four numbers a weather row and four a
                              land row (spin-up: twelve rows); a table has no lines or more than
                              1,200 */
  ROTHC_CLAY = 4,          /* clay is outside 0 to 1000 */
  ROTHC_DEPTH = 5,         /* depth is outside 1 to 100 */
  ROTHC_KIND = 6,          /* the plant kind is not 1, 2 or 3 */
  ROTHC_CARBON = 7,        /* the active pools together, or IOM, exceed 1,000,000,000 */
  ROTHC_ROOM = 8,          /* the output is too short */
  ROTHC_YEARS = 9,         /* spin-up years are outside 1 to 10,000 */
  ROTHC_STATE_BOUNDS = 10, /* a state's deficit is above its soil's largest, it has more than
                              120,000 months, its kept count is above 24, CO2 and active pools
                              together are above 1,000,000,000 + 200,000,000 x months, or the
                              modern grams of the active pools together are above
                              1,000,000,000 + 400,000,000 x months */
  ROTHC_TURN = 11,         /* the month's number isn't months done plus 1 */
  ROTHC_MONTH_LIMIT = 12,  /* 120,000 months are done */
  ROTHC_TEMPERATURE = 13,  /* temperature is outside -400 to 500 */
  ROTHC_WATER = 14,        /* rain or evaporation is outside 0 to 20,000 */
  ROTHC_COVER = 15,        /* cover is neither 0 nor 1 */
  ROTHC_ADDITIONS = 16,    /* plant or manure is outside 0 to 100,000,000 */
  ROTHC_CEILING = 17,      /* active pools before the month, plus plant and manure, exceed
                              1,000,000,000 */
  ROTHC_TABLE_LINE = 18,   /* a line of a table isn't of its form, or its month isn't the line's
                              number */
  ROTHC_SOURCE = 19,       /* the evaporation's source is neither 0 nor 1; asked after 14 */
  ROTHC_NONE_KEPT = 20,    /* no kept month is left to take back */
  ROTHC_ACTIVITY = 21,     /* the additions' activity is outside 0 to 2,000; asked after 16 */
  ROTHC_NO_CARBON = 22,    /* a radiocarbon report on a pool, or on all five, without carbon */
  ROTHC_SHAPE = 100        /* memory of a fixed layout has another length; or, of
                              rothc_radiocarbon, the pool is none of the six that can be asked */
};

/* The layouts: how many numbers each has, and the index of each number. */
enum {
  ROTHC_SOIL = 8,
  ROTHC_KEPT_STATE = 15, /* a state as it is kept */
  ROTHC_KEPT_LIMIT = 24, /* the most that are kept */
  ROTHC_STATE = 376,     /* the current state's 15, the kept count, and 24 places of 15 */
  ROTHC_WEATHER = 4,     /* a weather row */
  ROTHC_LAND = 4,        /* a land row; three before change 2026-04: lists in threes whose length
                            is a multiple of four are not refused but misread */
  ROTHC_ENTRIES = 8,     /* a month's: a weather row and a land row */
  ROTHC_ROW = 7,
  ROTHC_RESULT = 2,
  ROTHC_REPORT = 3
};

/* A soil, 8 x uint64_t.
 *
 * A state, 376 x uint64_t. Index 0 to 14 is the current state: a soil, three numbers more, and the
 * modern grams of the four active pools. (IOM's are not stored: they are its carbon x 2 / 1000,
 * rounded down.) Index 15 is the kept count: how many months can be taken back, 0 to 24. From index
 * 16 on there are 24 places for the states before the latest months: place p, counted from 0,
 * begins at ROTHC_STATE_PLACES + ROTHC_KEPT_STATE * p and holds what index 0 to 14 held in the
 * state that is kept there. The state with m months done is kept at place m mod 24, so that the
 * 25th goes where the oldest was. Kept are the states with 1, 2, 3 .. months done fewer than the
 * current one, as many as the count says; the other places hold what they held before.
 *
 * No call checks the kept states: the places can hold anything. Only rothc_month and rothc_list
 * write them, and only rothc_take_back reads them, so that they need not be set before rothc_start.
 * The 376 numbers can be copied, saved and lent again as they are. A state saved before change
 * 2026-04 has 276 and is refused as ROTHC_SHAPE. Of it only index 0 to 10 can be copied (its index
 * 11 was the kept count). Set the modern grams: to the pools' grams for pools of activity 1000, or
 * to 0 where no one will ask for radiocarbon; and the kept count to 0, since with another count
 * rothc_take_back restores whatever stands in the place. For the same reason let only the library
 * change the months done and the kept count. */
enum {
  ROTHC_SOIL_CLAY = 0,
  ROTHC_SOIL_DEPTH = 1,
  ROTHC_SOIL_KIND = 2, /* 1 crops and improved grassland, 2 unimproved grassland and scrub,
                          3 woodland */
  ROTHC_SOIL_DPM = 3,  /* decomposable plant material */
  ROTHC_SOIL_RPM = 4,  /* resistant plant material */
  ROTHC_SOIL_BIO = 5,  /* microbial biomass */
  ROTHC_SOIL_HUM = 6,  /* humified matter */
  ROTHC_SOIL_IOM = 7,  /* inert organic matter, which never changes */
  ROTHC_STATE_DEFICIT = 8,
  ROTHC_STATE_MONTHS = 9, /* months done */
  ROTHC_STATE_CO2 = 10,   /* CO2 to date, grams of carbon */
  ROTHC_STATE_MODERN_DPM = 11,
  ROTHC_STATE_MODERN_RPM = 12,
  ROTHC_STATE_MODERN_BIO = 13,
  ROTHC_STATE_MODERN_HUM = 14,
  ROTHC_STATE_KEPT = 15,  /* the kept count */
  ROTHC_STATE_PLACES = 16 /* the first place */
};

/* A month's entries, 8 x int64_t. A list's weather row is the first four and its land row the last
 * four. */
enum {
  ROTHC_ENTRIES_TEMPERATURE = 0,
  ROTHC_ENTRIES_RAIN = 1,
  ROTHC_ENTRIES_EVAPORATION = 2,
  ROTHC_ENTRIES_SOURCE = 3, /* of the evaporation: 0 open pan, 1 potential evapotranspiration */
  ROTHC_ENTRIES_COVER = 4,  /* 1 crop, 0 bare */
  ROTHC_ENTRIES_PLANT = 5,
  ROTHC_ENTRIES_MANURE = 6,
  ROTHC_ENTRIES_ACTIVITY = 7 /* of plant and manure, in thousandths, 0 to 2,000; where no one asks
                                for radiocarbon, 1000 or any other of them */
};

/* A month's row, 7 x uint64_t: the pools after the month, the CO2 of the month and the deficit
 * after it. */
enum {
  ROTHC_ROW_DPM = 0,
  ROTHC_ROW_RPM = 1,
  ROTHC_ROW_BIO = 2,
  ROTHC_ROW_HUM = 3,
  ROTHC_ROW_IOM = 4,
  ROTHC_ROW_CO2 = 5,
  ROTHC_ROW_DEFICIT = 6
};

/* The rows that a list may have, and the lines that a table may have. */
enum { ROTHC_MOST_ROWS = 1200 };

/* Always enough bytes for what is written for a book. */
enum { ROTHC_TEXT = 204800 };

/* A spin-up's result, 2 x uint64_t. */
enum { ROTHC_RESULT_SETTLED = 0, ROTHC_RESULT_YEARS = 1 };

/* What a radiocarbon report can be asked of: a pool, or all five together. */
enum {
  ROTHC_POOL_DPM = 0,
  ROTHC_POOL_RPM = 1,
  ROTHC_POOL_BIO = 2,
  ROTHC_POOL_HUM = 3,
  ROTHC_POOL_IOM = 4,
  ROTHC_POOL_ALL = 5
};

/* A radiocarbon report, 3 x int64_t: delta in hundredths (of a per mille), whether there is an age,
 * and the age in years, which is 0 where there is none. */
enum { ROTHC_REPORT_DELTA = 0, ROTHC_REPORT_KIND = 1, ROTHC_REPORT_AGE = 2 };

/* Whether there is an age: it is the report's; none up to 60,000 does it; or the pool has more
 * modern grams than grams. */
enum { ROTHC_DATED = 0, ROTHC_OLDER = 1, ROTHC_NEWER = 2 };

/* What rothc_survival, rothc_survival_terms and rothc_age_survival return where they have no number
 * to give. */
#define ROTHC_NO_SURVIVAL UINT64_MAX

/* The survival number of a pool in a month of rate number n: what the pool keeps of 1,000,000,000.
 * pool is 0 for DPM, 1 for RPM, 2 for BIO, 3 for HUM. Returns ROTHC_NO_SURVIVAL where pool is above
 * 3 or n above 8,363,900,000, the largest rate number of a month. */
uint64_t rothc_survival(uint64_t n, uint64_t pool);

/* The same survival number, and in terms how many terms of a series were summed for it: a call for
 * tests (change 2026-03). At most 40 are allowed, and 6 is the most that there are.
 * How they are counted: n x 2^44 / 1,200,000,000,000 is rounded down, multiplied by the pool's rate
 * in hundredths a year (1000, 30, 66, 2), divided by 2^7 and rounded down again; r is the remainder
 * of that by 2^32. r / 2^37 is what the series 1 - x + x^2/2 - .. is summed for: its term 0 is
 * 2^37, and each term after it is the one before it, times r, over 2^37 and over its number 1, 2,
 * 3, .., rounded down. Summed are the terms before the first that is 0.
 * Returns ROTHC_NO_SURVIVAL where rothc_survival does, and then leaves terms as it was.
 * terms: one number. */
uint64_t rothc_survival_terms(uint64_t n, uint64_t pool, uint64_t *terms);

/* Writes the new state of a soil: the soil's numbers, 0 for the deficit, the months done, the CO2
 * to date and the kept count, and as many modern grams as grams in each active pool. The places
 * stay as they were.
 * soil: ROTHC_SOIL numbers. state: ROTHC_STATE numbers, of any values.
 * Refusals: CLAY, DEPTH, KIND, CARBON. A refusal leaves state as it was. */
uint64_t rothc_start(const uint64_t *soil, size_t soil_len, uint64_t *state, size_t state_len);

/* Runs one month: keeps the state before it, moves the state on and writes the month's row. number
 * is the month's: months done plus 1. The kept count is one more, or stays 24: then the oldest kept
 * month is gone.
 * state: ROTHC_STATE numbers. entries: ROTHC_ENTRIES numbers. row: ROTHC_ROW numbers, of any
 * values.
 * Refusals: CLAY to CARBON for the state's soil, STATE_BOUNDS, and TURN to CEILING, with SOURCE
 * after WATER and ACTIVITY after ADDITIONS. A refusal leaves state and row as they were: a refused
 * month keeps nothing. */
uint64_t rothc_month(uint64_t *state, size_t state_len, uint64_t number, const int64_t *entries,
                     size_t entries_len, uint64_t *row, size_t row_len);

/* Takes the latest month back, whether rothc_month or rothc_list ran it: the state before it is the
 * current one again, so that the month can be booked afresh (docs/SLIPS.md). Another call takes
 * back the month before that.
 * Index 0 to 14 become what was kept, the months done and the CO2 to date among them, and the kept
 * count is one less. The places stay as they were. A state doesn't hold the entries of its months:
 * the caller has to have those that are to be booked again. The row of a month taken back is void.
 * state: ROTHC_STATE numbers.
 * Refusals: NONE_KEPT where the kept count is 0, before any other check; STATE_BOUNDS where it is
 * above 24. Nothing else is checked, neither the current state nor the one that is restored. A
 * refusal leaves state as it was. */
uint64_t rothc_take_back(uint64_t *state, size_t state_len);

/* Runs a list of months, one for each land row, and writes their rows one after another to the
 * start of rows; what lies past the last row written stays. Month j, counted from 1, takes land row
 * j and weather row ((j - 1) mod weather rows) + 1. Each month that runs keeps the state before it,
 * as rothc_month does, so that a list's last 24 months can be taken back.
 * state: ROTHC_STATE numbers. weather: temperature, rain, evaporation, source for each row. land:
 * cover, plant, manure, activity for each row. rows: at least ROTHC_ROW numbers a land row. place:
 * one number.
 * Refusals: ROWS, CLAY to CARBON, ROOM, STATE_BOUNDS leave state and rows as they were and set
 * place to 0. MONTH_LIMIT to CEILING, with SOURCE after WATER and ACTIVITY after ADDITIONS, set
 * place to the month that is refused, counted from the list's first: the months before it have run,
 * state is the one after them with the states before them kept, and their rows are written. Where
 * the list ran to its end, place is 0. Only rows that its months use are checked. */
uint64_t rothc_list(uint64_t *state, size_t state_len, const int64_t *weather, size_t weather_len,
                    const int64_t *land, size_t land_len, uint64_t *rows, size_t rows_len,
                    uint64_t *place);

/* Repeats twelve weather and twelve land rows, year after year, until the first year that settles,
 * or until the years are run. A year settles where the total of the five pools, and each of them,
 * are at its end at most 1,000 g from where it began, up or down (change 2026-05; until then the
 * total alone counted, and a spin-up could stop while residue fell and humus rose by as much: it
 * may now need more years, or come to a month that is refused). Leaves the state reached, settled
 * or not, with none kept: the kept count is 0, and the places stay as they were. docs/MODEL.md says
 * how far from its end a settled field can still be.
 * state: ROTHC_STATE numbers. weather: 48 numbers, land: 48, as in a list. years: those allowed, 1
 * to 10,000. result: ROTHC_RESULT numbers: 1 for settled or 0 for unsettled, and the years run.
 * Refusals: ROWS, CLAY to CARBON, YEARS, STATE_BOUNDS, and for one of the months MONTH_LIMIT to
 * CEILING, with SOURCE after WATER and ACTIVITY after ADDITIONS. A refusal leaves state as it was,
 * the kept months too; result then has 0 and the month that is refused, counted over all years from
 * the first, or 0 for a fault outside the months. */
uint64_t rothc_spin_up(uint64_t *state, size_t state_len, const int64_t *weather,
                       size_t weather_len, const int64_t *land, size_t land_len, uint64_t years,
                       uint64_t *result, size_t result_len);

/* The radiocarbon report of a pool of a state, or of all five, whose modern grams and carbon are
 * then added first (change 2026-04, docs/RADIOCARBON.md). pool: ROTHC_POOL_DPM to ROTHC_POOL_ALL.
 * Delta is 100,000 x modern / carbon rounded down, less 100,000. Where modern exceeds carbon, the
 * pool is ROTHC_NEWER. Else the age is the smallest whole number of years y, 0 to 60,000, whose
 * survival number for w = y / 8035 is at most 1,000,000,000 x modern / carbon, compared as
 * fractions; where no y does it, the pool is ROTHC_OLDER. Delta is written with all three.
 * state: ROTHC_STATE numbers, which stay. report: ROTHC_REPORT numbers, of any values. Any other
 * pool returns ROTHC_SHAPE.
 * Refusals: CLAY to CARBON and STATE_BOUNDS for the state, then NO_CARBON. A refusal leaves report
 * as it was. */
uint64_t rothc_radiocarbon(const uint64_t *state, size_t state_len, uint64_t pool, int64_t *report,
                           size_t report_len);

/* The survival number of an age: what w = years / 8035 leaves of 1,000,000,000, as the report uses
 * it. Returns ROTHC_NO_SURVIVAL where years is above 60,000. */
uint64_t rothc_age_survival(uint64_t years);

/* Runs a book, a text as docs/BOOK.md says, and writes to the start of out what the program writes
 * for it: POOLS, a line a month and TOTAL, or REFUSED with the number and the line. What lies past
 * that text in out stays. length: one number, the text's length in bytes.
 * Returns the number of the refusal, or 0 where the book ran.
 * ROOM: out is too short. Then out is as it was, and length says how many bytes are wanted;
 * ROTHC_TEXT bytes are always enough.
 * The call needs 360 kilobytes of stack. */
uint64_t rothc_book(const uint8_t *book, size_t book_len, uint8_t *out, size_t out_len,
                    uint64_t *length);

/* Reads a weather office's table, a text as docs/TABLES.md says: lines of month, temperature, rain
 * and potential evapotranspiration, with semicolons between them. Writes a weather row for each
 * line to the start of weather, its last number 1; what lies past the rows stays. They are weather
 * rows for a list as they are.
 * table: bytes, any number of them. weather: at least ROTHC_WEATHER numbers a line, of any values;
 * ROTHC_WEATHER * ROTHC_MOST_ROWS are always enough. rows, place: one number each: how many rows
 * were written, and 0; where the table is refused, 0, and the line or 0.
 * Refusals: ROWS and ROOM with place 0, then line by line TABLE_LINE, TEMPERATURE and WATER, with
 * the line as place, counted from 1. Bytes after the last line end are a line too, but never one of
 * the form. A refusal leaves weather as it was.
 * The call needs 40 kilobytes of stack. */
uint64_t rothc_table(const uint8_t *table, size_t table_len, int64_t *weather, size_t weather_len,
                     uint64_t *rows, uint64_t *place);

#ifdef __cplusplus
}
#endif

#endif
