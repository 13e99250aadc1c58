// A manure slip that comes late, as in examples/python/slip.py: February's, when March is booked.
// Prints the year's sheet as the program does, after showing that it is the sheet of a year in
// which the slip came in time.
#include <inttypes.h>
#include <stdio.h>
#include <stdlib.h>
#include <string.h>

#include "rothc.h"

enum { JANUARY, FEBRUARY, MARCH, DECEMBER = 11, YEAR, SLIP = 1500000, FRESH = 1000 };
static const uint64_t soil[ROTHC_SOIL] = {180, 23, 1, 160000, 4900000, 700000, 24000000, 2600000};
static const int64_t weather[YEAR][ROTHC_WEATHER] = {
    {34, 740, 80, 0},   {36, 590, 100, 0},  {51, 620, 272, 0},   {73, 510, 492, 0},
    {110, 520, 832, 0}, {139, 570, 992, 0}, {160, 340, 1032, 0}, {160, 550, 912, 0},
    {135, 580, 692, 0}, {102, 560, 340, 0}, {61, 750, 160, 0},   {46, 710, 80, 0}};
// what was done on the land, and in February what was entered first; all carbon is fresh
static const int64_t land[YEAR][ROTHC_LAND] = {
    {0, 0, 0, FRESH},      {0, 0, SLIP, FRESH},   {0, 0, 0, FRESH},
    {1, 160000, 0, FRESH}, {1, 320000, 0, FRESH}, {1, 480000, 0, FRESH},
    {1, 640000, 0, FRESH}, {0, 0, 0, FRESH},      {0, 0, 0, FRESH},
    {0, 0, 0, FRESH},      {0, 0, 0, FRESH},      {0, 0, 0, FRESH}};
static const int64_t without_slip[ROTHC_LAND] = {0, 0, 0, FRESH};

static void wanted(const char *call, uint64_t answer, uint64_t expected) {
  if (answer == expected) return;
  fprintf(stderr, "%s: %" PRIu64 " instead of %" PRIu64 "\n", call, answer, expected);
  exit(1);
}

static void take_back(uint64_t *state, uint64_t expected) {
  wanted("rothc_take_back", rothc_take_back(state, ROTHC_STATE), expected);
}

// Books a month of the year. Its row goes in the place of the one that was taken back.
static void book(uint64_t *state, int month, const int64_t *land_row, uint64_t (*rows)[ROTHC_ROW]) {
  int64_t entries[ROTHC_ENTRIES];
  memcpy(entries, weather[month], sizeof weather[month]);
  memcpy(entries + ROTHC_WEATHER, land_row, sizeof land[month]);
  wanted("rothc_month",
         rothc_month(state, ROTHC_STATE, month + 1, entries, ROTHC_ENTRIES, rows[month], ROTHC_ROW),
         ROTHC_DONE);
}

int main(void) {
  static uint64_t state[ROTHC_STATE], in_time[ROTHC_STATE];
  static uint64_t rows[YEAR][ROTHC_ROW], rows_in_time[YEAR][ROTHC_ROW], total, place;
  wanted("rothc_start", rothc_start(soil, ROTHC_SOIL, state, ROTHC_STATE), ROTHC_DONE);
  memcpy(in_time, state, sizeof state);

  book(state, JANUARY, land[JANUARY], rows);
  book(state, FEBRUARY, without_slip, rows);
  book(state, MARCH, land[MARCH], rows);
  take_back(state, ROTHC_DONE);
  take_back(state, ROTHC_DONE);
  for (int month = FEBRUARY; month <= DECEMBER; month++) book(state, month, land[month], rows);

  // in time: the same rows, and the same state to the last number that isn't about kept months
  wanted("rothc_list",
         rothc_list(in_time, ROTHC_STATE, *weather, YEAR * ROTHC_WEATHER, *land, YEAR * ROTHC_LAND,
                    *rows_in_time, YEAR * ROTHC_ROW, &place),
         ROTHC_DONE);
  wanted("rows that differ", memcmp(rows, rows_in_time, sizeof rows) != 0, 0);
  wanted("states that differ", memcmp(state, in_time, ROTHC_KEPT_STATE * sizeof *state) != 0, 0);
  wanted("months done", state[ROTHC_STATE_MONTHS], YEAR);

  printf("POOLS %d\n", YEAR);
  for (int month = JANUARY; month <= DECEMBER; month++) {
    printf("%d", month + 1);
    for (int i = 0; i < ROTHC_ROW; i++) printf(" %" PRIu64, rows[month][i]);
    printf("\n");
  }
  for (int i = ROTHC_SOIL_DPM; i <= ROTHC_SOIL_IOM; i++) total += state[i];
  printf("TOTAL %" PRIu64 " %" PRIu64 "\n", total, state[ROTHC_STATE_CO2]);

  // the whole year can be taken back, and no month more
  while (state[ROTHC_STATE_KEPT] > 0) take_back(state, ROTHC_DONE);
  wanted("months done", state[ROTHC_STATE_MONTHS], 0);
  take_back(state, ROTHC_NONE_KEPT);
  return 0;
}
