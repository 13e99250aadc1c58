// January 1852 at Hoosfield: by the month call, by a list of one month, and by a book.
#include <inttypes.h>
#include <stdio.h>
#include <string.h>

#include "rothc.h"

static const uint64_t soil[ROTHC_SOIL] = {234, 23, 1, 153300, 4485200, 667100, 25857600, 2700000};
// the fourth number is 0: the evaporation is an open pan's; the last is the activity of additions,
// of which there are none here: 1000 is fresh carbon's
static const int64_t january[ROTHC_ENTRIES] = {34, 740, 80, 0, 0, 0, 0, 1000};
static const char book[] = "SOIL 1\n234 23 1 153300 4485200 667100 25857600 2700000\nWEATHER 1\n34 740 80\nLAND 1\n0 0 0\n";

// The program's two lines: the month with its row, and the five pools together with the CO2 to
// date.
static void print(uint64_t month, const uint64_t *row, const uint64_t *state) {
  uint64_t total = 0;
  printf("%" PRIu64, month);
  for (int i = 0; i < ROTHC_ROW; i++) printf(" %" PRIu64, row[i]);
  for (int i = ROTHC_SOIL_DPM; i <= ROTHC_SOIL_IOM; i++) total += state[i];
  printf("\nTOTAL %" PRIu64 " %" PRIu64 "\n", total, state[ROTHC_STATE_CO2]);
}

static int refused(const char *call, uint64_t number) {
  if (number != ROTHC_DONE) fprintf(stderr, "%s: refused, %" PRIu64 "\n", call, number);
  return number != ROTHC_DONE;
}

int main(void) {
  static uint8_t text[ROTHC_TEXT];
  uint64_t start[ROTHC_STATE] = {0}, state[ROTHC_STATE], row[ROTHC_ROW] = {0}, place = 0, length = 0;
  if (refused("rothc_start", rothc_start(soil, ROTHC_SOIL, start, ROTHC_STATE))) return 1;

  memcpy(state, start, sizeof state);
  if (refused("rothc_month", rothc_month(state, ROTHC_STATE, 1, january, ROTHC_ENTRIES, row, ROTHC_ROW))) return 1;
  print(1, row, state);

  // the entries' first four numbers are a weather row, and the last four a land row
  memcpy(state, start, sizeof state);
  if (refused("rothc_list", rothc_list(state, ROTHC_STATE, january, ROTHC_WEATHER, january + ROTHC_WEATHER, ROTHC_LAND,
                                       row, ROTHC_ROW, &place)))
    return 1;
  print(1, row, state);

  if (refused("rothc_book", rothc_book((const uint8_t *)book, sizeof book - 1, text, ROTHC_TEXT, &length))) return 1;
  fwrite(text, 1, length, stdout);
  return 0;
}
