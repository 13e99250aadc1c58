// A core of Mill Piece, dug after one year whose plant carbon and manure have the radiocarbon of
// the air of 1964: 1.8 times that of fresh carbon. Prints the report of HUM and of all five pools.
#include <inttypes.h>
#include <stdio.h>
#include <stdlib.h>

#include "rothc.h"

enum { YEAR = 12, BOMB = 1800 };
// a new field's active pools are fresh carbon, and its IOM has 2 thousandths
static const uint64_t soil[ROTHC_SOIL] = {180, 23, 1, 160000, 4900000, 700000, 24000000, 2600000};
static const int64_t weather[YEAR][ROTHC_WEATHER] = {
    {34, 740, 80, 0},   {36, 590, 100, 0},  {51, 620, 272, 0},   {73, 510, 492, 0},
    {110, 520, 832, 0}, {139, 570, 992, 0}, {160, 340, 1032, 0}, {160, 550, 912, 0},
    {135, 580, 692, 0}, {102, 560, 340, 0}, {61, 750, 160, 0},   {46, 710, 80, 0}};
static const int64_t land[YEAR][ROTHC_LAND] = {
    {0, 0, 0, BOMB},      {0, 0, 1500000, BOMB}, {0, 0, 0, BOMB},
    {1, 160000, 0, BOMB}, {1, 320000, 0, BOMB},  {1, 480000, 0, BOMB},
    {1, 640000, 0, BOMB}, {0, 0, 0, BOMB},       {0, 0, 0, BOMB},
    {0, 0, 0, BOMB},      {0, 0, 0, BOMB},       {0, 0, 0, BOMB}};

static void wanted(const char *call, uint64_t answer, uint64_t expected) {
  if (answer == expected) return;
  fprintf(stderr, "%s: %" PRIu64 " instead of %" PRIu64 "\n", call, answer, expected);
  exit(1);
}

// Delta, and the age with its survival number, or the word in its place.
static void print(const char *name, const uint64_t *state, uint64_t pool) {
  int64_t report[ROTHC_REPORT];
  wanted("rothc_radiocarbon",
         rothc_radiocarbon(state, ROTHC_STATE, pool, report, ROTHC_REPORT), ROTHC_DONE);
  printf("%s: delta %.2f per mille, ", name, (double)report[ROTHC_REPORT_DELTA] / 100);
  if (report[ROTHC_REPORT_KIND] == ROTHC_DATED)
    printf("%" PRId64 " years, in which fresh carbon keeps %" PRIu64 " of 1000000000\n",
           report[ROTHC_REPORT_AGE], rothc_age_survival(report[ROTHC_REPORT_AGE]));
  else
    printf("%s\n", report[ROTHC_REPORT_KIND] == ROTHC_NEWER ? "newer" : "older");
}

int main(void) {
  static uint64_t state[ROTHC_STATE], rows[YEAR][ROTHC_ROW], place;
  wanted("rothc_start", rothc_start(soil, ROTHC_SOIL, state, ROTHC_STATE), ROTHC_DONE);
  wanted("rothc_list",
         rothc_list(state, ROTHC_STATE, *weather, YEAR * ROTHC_WEATHER, *land, YEAR * ROTHC_LAND,
                    *rows, YEAR * ROTHC_ROW, &place),
         ROTHC_DONE);
  print("HUM", state, ROTHC_POOL_HUM);
  print("all five", state, ROTHC_POOL_ALL);
  return 0;
}
