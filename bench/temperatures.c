// The four survival numbers of a month at each of the 551 temperatures from -5.0 to 50.0 degrees,
// on bare soil and under a crop, soil moist: before change 2026-03, now, and four calls of exp, in
// alternation in one run. bench/temperatures builds and runs it.
//
//     bench-temperatures PICTURE    a table to standard output, the curves to PICTURE (SVG)
#include <math.h>
#include <stdint.h>
#include <stdio.h>
#include <stdlib.h>
#include <time.h>

#include "rothc.h"

uint64_t rothc_survival_before(uint64_t n, uint64_t pool);  // bench/survival_before.s

enum { LOWEST = -50, TEMPERATURES = 551, COVERS = 2, SIDES = 3, RUNS = 31, CALLS = 2000 };
enum { BEFORE, NOW, EXP };
static const char *const side_names[SIDES] = {"before", "now", "four exp"};
static const char *const cover_names[COVERS] = {"bare", "crop"};

// ---- the three sides: each makes the four numbers of a rate number and gives one of them

static __attribute__((noinline)) double four_exp(uint64_t n) {
  double w = (double)n / 1.2e12;
  return exp(-w * 1000) + exp(-w * 30) + exp(-w * 66) + exp(-w * 2);
}

static volatile uint64_t rate, sink;
static volatile double floats;

static double now(void) {
  struct timespec t;
  clock_gettime(CLOCK_MONOTONIC, &t);
  return t.tv_sec + 1e-9 * t.tv_nsec;
}

// Nanoseconds for the four numbers of the rate number, which is read anew for each call.
static double timed(int side) {
  double start = now(), some = 0;
  uint64_t sum = 0;
  for (int i = 0; i < CALLS; i++) {
    if (side == BEFORE) sum += rothc_survival_before(rate, 1);
    if (side == NOW) sum += rothc_survival(rate, 1);
    if (side == EXP) some += four_exp(rate);
  }
  sink = sum, floats = some;
  return (now() - start) * 1e9 / CALLS;
}

// ---- the months

// N of a moist soil: A, by the formula of step 1, times 10,000, times 10 on bare soil or 6 under a
// crop.
static uint64_t rate_number(int place, int cover) {
  double t = (LOWEST + place) / 10.0;
  uint64_t a = (uint64_t)lround(479100 / (1 + exp(106.06 / (t + 18.27))));
  return a * 10000 * (cover ? 6 : 10);
}

static double times[TEMPERATURES][COVERS][SIDES];

static int by_size(const void *a, const void *b) {
  double x = *(const double *)a, y = *(const double *)b;
  return x < y ? -1 : x > y;
}

// Each run begins with another side. The median of the runs is kept.
static void time_all(void) {
  static double runs[TEMPERATURES][COVERS][SIDES][RUNS];
  for (int run = 0; run < RUNS; run++)
    for (int place = 0; place < TEMPERATURES; place++)
      for (int cover = 0; cover < COVERS; cover++) {
        rate = rate_number(place, cover);
        for (int turn = 0; turn < SIDES; turn++) {
          int side = (run + turn) % SIDES;
          runs[place][cover][side][run] = timed(side);
        }
      }
  for (int place = 0; place < TEMPERATURES; place++)
    for (int cover = 0; cover < COVERS; cover++)
      for (int side = 0; side < SIDES; side++) {
        qsort(runs[place][cover][side], RUNS, sizeof(double), by_size);
        times[place][cover][side] = runs[place][cover][side][RUNS / 2];
      }
}

// Before and now differ by at most 2, as two numbers that are at most 1 from one value do.
static void compare(void) {
  for (int place = 0; place < TEMPERATURES; place++)
    for (int cover = 0; cover < COVERS; cover++)
      for (uint64_t pool = 0; pool < 4; pool++) {
        uint64_t n = rate_number(place, cover), terms = 0;
        int64_t apart = (int64_t)(rothc_survival_before(n, pool) - rothc_survival(n, pool));
        if (apart < -2 || apart > 2 ||
            rothc_survival_terms(n, pool, &terms) != rothc_survival(n, pool) || terms > 40)
          fprintf(stderr, "a survival number differs\n"), exit(2);
      }
}

// ---- the table: every fifth degree, then all 1,102 months together

static void print_terms(int place, int cover) {
  for (uint64_t pool = 0; pool < 4; pool++) {
    uint64_t terms = 0;
    rothc_survival_terms(rate_number(place, cover), pool, &terms);
    printf(" %llu", (unsigned long long)terms);
  }
}

static void print_rows(int cover) {
  for (int place = 0; place < TEMPERATURES; place += 50) {
    const double *t = times[place][cover];
    printf("| %s | %d |", cover_names[cover], (LOWEST + place) / 10);
    print_terms(place, cover);
    printf(" | %.1f | %.1f | %.1f | %.2f | %.2f | %.2f |\n", t[BEFORE], t[NOW], t[EXP],
           t[BEFORE] / t[EXP], t[NOW] / t[EXP], t[NOW] / t[BEFORE]);
  }
}

static double quotient(int i, int above, int below) {
  const double *t = times[i / COVERS][i % COVERS];
  return t[above] / t[below];
}

static void print_spread(const char *what, int above, int below) {
  static double all[TEMPERATURES * COVERS];
  int count = TEMPERATURES * COVERS;
  for (int i = 0; i < count; i++) all[i] = quotient(i, above, below);
  qsort(all, count, sizeof *all, by_size);
  printf("- %s: median %.2f, least %.2f, most %.2f\n", what, all[count / 2], all[0],
         all[count - 1]);
}

static void print_table(void) {
  int slower = 0;
  printf(
      "| soil | °C | terms (DPM RPM BIO HUM) | before, ns | now, ns | four `exp`, ns | before / "
      "`exp` | now / `exp` | now / before |\n");
  printf("|---|---|---|---|---|---|---|---|---|\n");
  for (int cover = 0; cover < COVERS; cover++) print_rows(cover);
  printf("\nOver all of these months, 551 temperatures bare and under a crop, as ratios:\n\n");
  print_spread("before to four `exp`", BEFORE, EXP);
  print_spread("now to four `exp`", NOW, EXP);
  print_spread("now to before", NOW, BEFORE);
  for (int i = 0; i < TEMPERATURES * COVERS; i++) slower += quotient(i, NOW, BEFORE) >= 1;
  if (slower == 0) printf("- months in which the new time is not better: none\n");
  else printf("- months in which the new time is NOT better: %d\n", slower);
}

// ---- the picture: temperature against nanoseconds

enum { WIDTH = 900, HEIGHT = 480, LEFT = 60, RIGHT = 170, TOP = 40, BOTTOM = 50 };

static double x_of(int place) {
  return LEFT + (double)(WIDTH - LEFT - RIGHT) * place / (TEMPERATURES - 1);
}
static double y_of(double ns, double most) {
  return HEIGHT - BOTTOM - (HEIGHT - TOP - BOTTOM) * ns / most;
}

static double highest(void) {
  double most = 0;
  for (int i = 0; i < TEMPERATURES * COVERS; i++)
    for (int side = 0; side < SIDES; side++) most = fmax(most, times[i / COVERS][i % COVERS][side]);
  return ceil(most / 10) * 10;
}

static void draw_text(FILE *f, double x, double y, const char *anchor, const char *text) {
  fprintf(f, "<text x=\"%.0f\" y=\"%.0f\" text-anchor=\"%s\">%s</text>\n", x, y, anchor, text);
}

static void draw_axes(FILE *f, double most) {
  char text[16];
  for (int ns = 0; ns <= most; ns += 10) {
    fprintf(f, "<path d=\"M%d %.1fH%d\" stroke=\"#ddd\"/>\n", LEFT, y_of(ns, most), WIDTH - RIGHT);
    snprintf(text, sizeof text, "%d", ns);
    draw_text(f, LEFT - 8, y_of(ns, most) + 4, "end", text);
  }
  for (int place = 0; place < TEMPERATURES; place += 50) {
    snprintf(text, sizeof text, "%d", (LOWEST + place) / 10);
    draw_text(f, x_of(place), HEIGHT - BOTTOM + 20, "middle", text);
  }
  draw_text(f, LEFT, TOP - 16, "start", "nanoseconds for the four survival numbers of a month");
  draw_text(f, (LEFT + WIDTH - RIGHT) / 2.0, HEIGHT - 10, "middle", "temperature, °C");
}

static void draw_curve(FILE *f, int cover, int side, double most) {
  static const char *const colours[SIDES] = {"#b03a2e", "#1f6f43", "#5d6d7e"};
  fprintf(f, "<polyline fill=\"none\" stroke=\"%s\" stroke-width=\"1.5\"%s points=\"",
          colours[side], cover ? " stroke-dasharray=\"5 3\"" : "");
  for (int place = 0; place < TEMPERATURES; place++)
    fprintf(f, "%.1f,%.1f ", x_of(place), y_of(times[place][cover][side], most));
  fprintf(f, "\"/>\n");
  double y = TOP + 24 * (COVERS * side + cover);
  fprintf(f, "<path d=\"M%d %.0fh30\" stroke=\"%s\" stroke-width=\"2\"%s/>\n", WIDTH - RIGHT + 15,
          y, colours[side], cover ? " stroke-dasharray=\"5 3\"" : "");
  char text[32];
  snprintf(text, sizeof text, "%s, %s", side_names[side], cover_names[cover]);
  draw_text(f, WIDTH - RIGHT + 52, y + 4, "start", text);
}

static void draw(const char *path) {
  FILE *f = fopen(path, "w");
  double most = highest();
  if (!f) perror(path), exit(2);
  fprintf(f,
          "<svg xmlns=\"http://www.w3.org/2000/svg\" viewBox=\"0 0 %d %d\" "
          "font-family=\"sans-serif\" font-size=\"13\">\n",
          WIDTH, HEIGHT);
  fprintf(f, "<rect width=\"%d\" height=\"%d\" fill=\"#fff\"/>\n", WIDTH, HEIGHT);
  draw_axes(f, most);
  for (int side = 0; side < SIDES; side++)
    for (int cover = 0; cover < COVERS; cover++) draw_curve(f, cover, side, most);
  fprintf(f, "</svg>\n");
  if (fclose(f)) perror(path), exit(2);
}

int main(int argc, char **argv) {
  if (argc != 2) return fprintf(stderr, "usage: bench-temperatures PICTURE\n"), 2;
  compare();
  time_all();
  print_table();
  draw(argv[1]);
  return 0;
}
