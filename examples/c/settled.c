// Warren Close (examples/light/warren-close.book), a light field: where its spin-up stopped by the
// total alone, and where it stops now that each pool has to stand still too. Prints these two lines
// of examples/light/settled.out.
#include <inttypes.h>
#include <stdio.h>
#include <stdlib.h>

#include "rothc.h"

enum { YEAR = 12, MOST_YEARS = 10000, FRESH = 1000, POOLS = 5 };
static const uint64_t soil[ROTHC_SOIL] = {40, 23, 1, 200000, 7500000, 400000, 8000000, 1500000};
static const int64_t weather[YEAR][ROTHC_WEATHER] = {
    {34, 740, 80, 0},   {36, 590, 100, 0},  {51, 620, 270, 0},   {73, 510, 490, 0},
    {110, 520, 830, 0}, {139, 570, 990, 0}, {160, 340, 1030, 0}, {160, 550, 910, 0},
    {135, 580, 690, 0}, {102, 560, 340, 0}, {61, 750, 160, 0},   {46, 710, 80, 0}};
// a crop from January to July and in December
static const int64_t land[YEAR][ROTHC_LAND] = {
    {1, 260000, 0, FRESH}, {1, 260000, 0, FRESH}, {1, 260000, 0, FRESH}, {1, 260000, 0, FRESH},
    {1, 260000, 0, FRESH}, {1, 260000, 0, FRESH}, {1, 260000, 0, FRESH}, {0, 0, 0, FRESH},
    {0, 0, 0, FRESH},      {0, 0, 0, FRESH},      {0, 0, 0, FRESH},      {1, 260000, 0, FRESH}};

static void done(const char *call, uint64_t answer) {
  if (answer == ROTHC_DONE) return;
  fprintf(stderr, "%s: %" PRIu64 "\n", call, answer);
  exit(1);
}

static uint64_t total(const uint64_t *state) {
  uint64_t sum = 0;
  for (int pool = 0; pool < POOLS; pool++) sum += state[ROTHC_SOIL_DPM + pool];
  return sum;
}

// Years of months, until one ends with a total at most 1,000 g from where it began. Gives how many.
static uint64_t by_total(uint64_t *state) {
  for (uint64_t years = 1;; years++) {
    uint64_t rows[YEAR][ROTHC_ROW], place, before = total(state), after;
    done("rothc_list", rothc_list(state, ROTHC_STATE, *weather, YEAR * ROTHC_WEATHER, *land,
                                  YEAR * ROTHC_LAND, *rows, YEAR * ROTHC_ROW, &place));
    after = total(state);
    if ((after > before ? after - before : before - after) <= 1000) return years;
  }
}

static uint64_t by_pools(uint64_t *state) {
  uint64_t result[ROTHC_RESULT];
  done("rothc_spin_up", rothc_spin_up(state, ROTHC_STATE, *weather, YEAR * ROTHC_WEATHER, *land,
                                      YEAR * ROTHC_LAND, MOST_YEARS, result, ROTHC_RESULT));
  if (!result[ROTHC_RESULT_SETTLED]) fprintf(stderr, "unsettled\n"), exit(1);
  return result[ROTHC_RESULT_YEARS];
}

// The years, then the pools and their total in kilograms, to the nearest.
static void print(const char *rule, uint64_t (*stop)(uint64_t *)) {
  static uint64_t state[ROTHC_STATE];
  done("rothc_start", rothc_start(soil, ROTHC_SOIL, state, ROTHC_STATE));
  printf("%-14s%8" PRIu64, rule, stop(state));
  for (int pool = 0; pool < POOLS; pool++)
    printf("%7" PRIu64, (state[ROTHC_SOIL_DPM + pool] + 500) / 1000);
  printf("%7" PRIu64 "\n", (total(state) + 500) / 1000);
}

int main(void) {
  print("total alone", by_total);
  print("each pool too", by_pools);
  return 0;
}
