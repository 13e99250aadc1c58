// Times the proved functions beside ordinary C (a floating-point RothC, and a reader of tables with
// strtod), in one run and in alternation, and writes medians and ratios. bench/run builds and runs
// it. Further libraries, as of earlier commits (change 2026-02 or later), are timed in the same
// alternation, each on memory of its own layout.
//
//     bench-rothc LIBRARY ..                      times
//     bench-rothc --count SIDE JOB TIMES LIBRARY  one side (proved, plain or second) of one job, so
//                                                 many times and untimed, for counts of
//                                                 instructions; writes the job's size, or 0 where
//                                                 there is no such side
#include <dlfcn.h>
#include <math.h>
#include <stdint.h>
#include <stdio.h>
#include <stdlib.h>
#include <string.h>
#include <time.h>

#include "rothc.h"

// ---- ordinary C

// Rothamsted's weather, and a year of the unmanured plot on Hoosfield (examples/README.md), its
// carbon fresh.
static const int64_t rothamsted[12 * ROTHC_WEATHER] = {
    34,  740, 80,  0, 36,  590, 100, 0, 51,  620, 270,  0, 73,  510, 490, 0,
    110, 520, 830, 0, 139, 570, 990, 0, 160, 340, 1030, 0, 160, 550, 910, 0,
    135, 580, 690, 0, 102, 560, 340, 0, 61,  750, 160,  0, 46,  710, 80,  0};
static const int64_t crops[12 * ROTHC_LAND] = {
    0, 0,      0, 1000, 0, 0,      0, 1000, 0, 0,      0, 1000, 1, 160000, 0, 1000,
    1, 320000, 0, 1000, 1, 480000, 0, 1000, 1, 640000, 0, 1000, 0, 0,      0, 1000,
    0, 0,      0, 1000, 0, 0,      0, 1000, 0, 0,      0, 1000, 0, 0,      0, 1000};
// Every month at -5 degrees: the pools grow for longer than 10,000 years, so that the spin-up never
// settles.
static int64_t cold[12 * ROTHC_WEATHER];

// An ordinary floating-point RothC month, tonnes a hectare, clay 23.4 %, 23 cm, on carbon and
// radiocarbon: the work of the library now. The modern tonnes lose a month's share (mean life 8,035
// years), and then decay and are added to as the carbon is.
typedef struct { double dpm, rpm, bio, hum; } pools;
typedef struct { pools carbon, modern; double iom, deficit, gas; } field;

static const double clay = 23.4;

static inline double active(const pools *p) { return p->dpm + p->rpm + p->bio + p->hum; }
static inline double total(const field *f) { return active(&f->carbon) + f->iom; }

static inline double rate_of(field *f, const int64_t *w, const int64_t *l) {
  const double largest = 20.0 + 1.3 * clay - 0.01 * clay * clay;
  double a = 47.91 / (1 + exp(106.06 / (w[0] / 10.0 + 18.27)));
  double limit = l[0] ? largest : fmax(f->deficit, largest / 1.8);
  double drying = (w[3] ? 1.0 : 0.75) * w[2] / 10.0 - w[1] / 10.0, b = 1;
  f->deficit = fmin(fmax(f->deficit + drying, 0), limit);
  if (f->deficit >= 0.444 * largest)
    b = 0.2 + 0.8 * (largest - f->deficit) / (largest - 0.444 * largest);
  return a * b * (l[0] ? 0.6 : 1.0) / 12;
}

// What the pools keep, and what forms of the rest. Returns what does not form.
static inline double decay(pools *p, const pools *kept) {
  const double ratio = 1.67 * (1.85 + 1.60 * exp(-0.0786 * clay));
  double before = active(p);
  p->dpm *= kept->dpm, p->rpm *= kept->rpm, p->bio *= kept->bio, p->hum *= kept->hum;
  double lost = before - active(p), formed = lost / (1 + ratio);
  p->bio += 0.46 * formed;
  p->hum += 0.54 * formed;
  return lost - formed;
}

static inline void add(pools *p, double plant, double manure) {
  p->dpm += plant * 1.44 / 2.44 + manure * 0.49;
  p->rpm += plant / 2.44 + manure * 0.49;
  p->hum += manure * 0.02;
}

static void month(field *f, const int64_t *w, const int64_t *l) {
  const double left = exp(-1 / (12 * 8035.0));
  double rate = rate_of(f, w, l), plant = l[1] / 1e6, manure = l[2] / 1e6, activity = l[3] / 1e3;
  pools kept = {exp(-rate * 10), exp(-rate * 0.3), exp(-rate * 0.66), exp(-rate * 0.02)};
  pools *m = &f->modern;
  f->gas = decay(&f->carbon, &kept);
  add(&f->carbon, plant, manure);
  m->dpm *= left, m->rpm *= left, m->bio *= left, m->hum *= left;
  decay(m, &kept);
  add(m, plant * activity, manure * activity);
}

static const field hoosfield = {
    {0.1533, 4.4852, 0.6671, 25.8576}, {0.1533, 4.4852, 0.6671, 25.8576}, 2.7, 0, 0};

// Hoosfield's soil after scrub was ploughed in: much residue, little humus.
static const field scrub = {{0.2, 13, 0.4, 8}, {0.2, 13, 0.4, 8}, 2.7, 0, 0};

// The same month on carbon alone: the work of libraries before change 2026-04. It stays as it was
// then, so that their ratios to it can be compared with those measured at the time. (By pointer, as
// above, it would be a tenth or more faster.)
typedef struct { double dpm, rpm, bio, hum, iom, deficit, gas; } carbon_field;

static carbon_field carbon_month(carbon_field f, const int64_t *w, const int64_t *l) {
  const double largest = 20.0 + 1.3 * clay - 0.01 * clay * clay;
  double ratio = 1.67 * (1.85 + 1.60 * exp(-0.0786 * clay));
  double a = 47.91 / (1 + exp(106.06 / (w[0] / 10.0 + 18.27)));
  double limit = l[0] ? largest : fmax(f.deficit, largest / 1.8);
  f.deficit = fmin(fmax(f.deficit + (w[3] ? 1.0 : 0.75) * w[2] / 10.0 - w[1] / 10.0, 0), limit);
  double b = f.deficit < 0.444 * largest
                 ? 1
                 : 0.2 + 0.8 * (largest - f.deficit) / (largest - 0.444 * largest);
  double rate = a * b * (l[0] ? 0.6 : 1.0) / 12;
  double d = f.dpm * exp(-rate * 10), r = f.rpm * exp(-rate * 0.3);
  double o = f.bio * exp(-rate * 0.66), h = f.hum * exp(-rate * 0.02);
  double lost = f.dpm - d + f.rpm - r + f.bio - o + f.hum - h, formed = lost / (1 + ratio);
  double plant = l[1] / 1e6, manure = l[2] / 1e6;
  f.gas = lost - formed;
  f.dpm = d + plant * 1.44 / 2.44 + manure * 0.49;
  f.rpm = r + plant / 2.44 + manure * 0.49;
  f.bio = o + 0.46 * formed;
  f.hum = h + 0.54 * formed + manure * 0.02;
  return f;
}

static const carbon_field carbon_hoosfield = {0.1533, 4.4852, 0.6671, 25.8576, 2.7, 0, 0};

static double carbon_total(carbon_field f) { return f.dpm + f.rpm + f.bio + f.hum + f.iom; }

// A field with the states before its latest 24 months, in ordinary C: a month that keeps the state
// before it, and the latest one taken back.
typedef struct { field now, kept[ROTHC_KEPT_LIMIT]; unsigned months, count; } kept_field;

static void keep_month(kept_field *f, const int64_t *w, const int64_t *l) {
  f->kept[f->months++ % ROTHC_KEPT_LIMIT] = f->now;
  if (f->count < ROTHC_KEPT_LIMIT) f->count++;
  month(&f->now, w, l);
}

static int take_back(kept_field *f) {
  if (f->count == 0) return ROTHC_NONE_KEPT;
  f->count--;
  f->now = f->kept[--f->months % ROTHC_KEPT_LIMIT];
  return 0;
}

// Ordinary radiocarbon reports: the age by the logarithm, or by halves.
enum { OLDEST = 60000 };
typedef struct { double delta, age; int dated; } report;
typedef double age_function(double ratio);

static double age_by_log(double ratio) { return ceil(-8035 * log(ratio)); }

static double age_by_halves(double ratio) {
  int low = 0, high = OLDEST + 1;
  while (low < high) {
    int middle = (low + high) / 2;
    if (exp(-middle / 8035.0) <= ratio) high = middle;
    else low = middle + 1;
  }
  return high;
}

static inline report report_of(double modern, double carbon, age_function *age_of) {
  double ratio = modern / carbon;
  report r = {floor(1e5 * ratio) - 1e5, 0, ROTHC_NEWER};
  if (ratio > 1) return r;
  r.age = age_of(ratio), r.dated = ROTHC_DATED;
  if (r.age > OLDEST) r.age = 0, r.dated = ROTHC_OLDER;
  return r;
}

static inline report report_on(const field *f, int pool, age_function *age_of) {
  const pools *c = &f->carbon, *m = &f->modern;
  double inert = 0.002 * f->iom;
  switch (pool) {
    case ROTHC_POOL_DPM: return report_of(m->dpm, c->dpm, age_of);
    case ROTHC_POOL_RPM: return report_of(m->rpm, c->rpm, age_of);
    case ROTHC_POOL_BIO: return report_of(m->bio, c->bio, age_of);
    case ROTHC_POOL_HUM: return report_of(m->hum, c->hum, age_of);
    case ROTHC_POOL_IOM: return report_of(inert, f->iom, age_of);
    default: return report_of(active(m) + inert, total(f), age_of);
  }
}

// An ordinary e^(-w) with the number of its terms: the plain series in doubles, each term from the
// one before it, until one is too small to count in a billionth.
static double series_counted(double w, unsigned *terms) {
  double term = 1, sum = 0;
  for (*terms = 0; fabs(term) > 1e-10; term *= -w / ++*terms) sum += term;
  return sum;
}

// An ordinary reader of a table in memory, which ends with a byte 0: strtol for the month and
// strtod for the others, each row kept in doubles. Gives the rows, or -1 where something else
// stands there.
static int read_table(const char *text, double *weather) {
  int rows = 0;
  while (*text) {
    char *end;
    long number = strtol(text, &end, 10);
    if (rows == ROTHC_MOST_ROWS || end == text || number != rows + 1) return -1;
    for (int k = 0; k < 3; k++) {
      if (*end != ';') return -1;
      text = end + 1;
      weather[3 * rows + k] = strtod(text, &end);
      if (end == text) return -1;
    }
    if (*end != '\n') return -1;
    if (weather[3 * rows] < -40 || weather[3 * rows] > 50) return -1;
    for (int k = 1; k < 3; k++)
      if (weather[3 * rows + k] < 0 || weather[3 * rows + k] > 2000) return -1;
    text = end + 1, rows++;
  }
  return rows;
}

// ---- the libraries

// What differs in the memory that a library is lent: the numbers of a state, a month's entries and
// a land row, with the land rows of lists and of spin-ups. The first layout is include/rothc.h's,
// the second that of changes 2026-02 and 2026-03, without modern grams and activity.
typedef struct {
  size_t state, entries, row;
  int64_t land[ROTHC_MOST_ROWS * ROTHC_LAND], residue[12 * ROTHC_LAND], crop[12 * ROTHC_LAND];
} layout;

enum { LAYOUTS = 2 };
static layout layouts[LAYOUTS] = {
    {.state = ROTHC_STATE, .entries = ROTHC_ENTRIES, .row = ROTHC_LAND},
    {.state = 276, .entries = 7, .row = 3}};

typedef struct {
  __typeof__(&rothc_survival) survival;
  __typeof__(&rothc_start) start;
  __typeof__(&rothc_month) month;
  __typeof__(&rothc_take_back) take_back;
  __typeof__(&rothc_list) list;
  __typeof__(&rothc_spin_up) spin_up;
  __typeof__(&rothc_table) table;
  __typeof__(&rothc_survival_terms) survival_terms;  // null in libraries before change 2026-03
  __typeof__(&rothc_radiocarbon) radiocarbon;        // null in libraries before change 2026-04
  const layout *layout;
} library;

static const uint64_t hoosfield_soil[ROTHC_SOIL] = {234,    23,       1,      153300, 4485200,
                                                    667100, 25857600, 2700000};
static const uint64_t scrub_soil[ROTHC_SOIL] = {234,    23,      1,      200000, 13000000,
                                                400000, 8000000, 2700000};

static void *function(void *object, const char *name) {
  void *found = dlsym(object, name);
  if (!found) fprintf(stderr, "%s\n", dlerror()), exit(2);
  return found;
}

// The layout of which a library takes a state. (It refuses every other length.)
static const layout *layout_of(const library *one) {
  uint64_t state[ROTHC_STATE];
  for (int i = 0; i < LAYOUTS; i++)
    if (one->start(hoosfield_soil, ROTHC_SOIL, state, layouts[i].state) == 0) return &layouts[i];
  fprintf(stderr, "a library has states of another length\n"), exit(2);
}

static library load(const char *path) {
  void *object = dlopen(path, RTLD_NOW | RTLD_LOCAL);
  if (!object) fprintf(stderr, "%s\n", dlerror()), exit(2);
  library one = {.survival = function(object, "rothc_survival"),
                 .start = function(object, "rothc_start"),
                 .month = function(object, "rothc_month"),
                 .take_back = function(object, "rothc_take_back"),
                 .list = function(object, "rothc_list"),
                 .spin_up = function(object, "rothc_spin_up"),
                 .table = function(object, "rothc_table"),
                 .survival_terms = dlsym(object, "rothc_survival_terms"),
                 .radiocarbon = dlsym(object, "rothc_radiocarbon")};
  one.layout = layout_of(&one);
  return one;
}

// The library whose turn it is, and what the jobs make, so that no work can be left out.
static library lib;
static uint64_t sink;
static double floats;

static void expect(int holds, const char *what) {
  if (!holds) fprintf(stderr, "%s\n", what), exit(2);
}

static void new_field(uint64_t *state) {
  expect(lib.start(hoosfield_soil, ROTHC_SOIL, state, lib.layout->state) == 0,
         "a field was refused");
}

// ---- the jobs: the proved side and the plain one do the same work

// The four survival numbers of a month over random N, beside four calls of exp. (rothc_survival
// makes the four and returns one.)
enum { NUMBERS = 65536 };
static uint64_t numbers[NUMBERS];

static void proved_survival(int n) {
  for (int i = 0; i < n; i++) sink += lib.survival(numbers[i % NUMBERS], 1);
}

static void plain_survival(int n) {
  for (int i = 0; i < n; i++) {
    double w = (double)numbers[i % NUMBERS] / 1.2e12;
    floats += exp(-w * 1000) + exp(-w * 30) + exp(-w * 66) + exp(-w * 2);
  }
}

// DPM's survival number with the number of its terms, over the same N.
static void proved_terms(int n) {
  for (int i = 0; i < n; i++) {
    uint64_t terms;
    sink += lib.survival_terms(numbers[i % NUMBERS], 0, &terms) + terms;
  }
}

static void plain_terms(int n) {
  for (int i = 0; i < n; i++) {
    unsigned terms;
    floats += series_counted((double)numbers[i % NUMBERS] / 1.2e9, &terms) + terms;
  }
}

// The plain sides of months come twice: on carbon and radiocarbon, and on carbon alone.

static const int64_t *weather_of(int m) { return rothamsted + ROTHC_WEATHER * (m % 12); }
static const int64_t *crops_of(int m) { return crops + ROTHC_LAND * (m % 12); }

// Entries in the layout of now: those of the older one are all but the last.
static void entries_of(int64_t *entries, int m) {
  memcpy(entries, weather_of(m), ROTHC_WEATHER * sizeof *entries);
  memcpy(entries + ROTHC_WEATHER, crops_of(m), ROTHC_LAND * sizeof *entries);
}

// Single month calls, year after year from the same start, which keep the state before each month.
// (Floating point's side keeps nothing.)
static void proved_months(int n) {
  uint64_t state[ROTHC_STATE], row[ROTHC_ROW];
  size_t state_len = lib.layout->state, entries_len = lib.layout->entries;
  for (int i = 0; i < n; i++) {
    int64_t entries[ROTHC_ENTRIES];
    if (i % 12 == 0) new_field(state);
    entries_of(entries, i);
    sink += lib.month(state, state_len, i % 12 + 1, entries, entries_len, row, ROTHC_ROW);
  }
  expect(state[ROTHC_STATE_MONTHS] == 12, "a month was refused");
}

static void plain_months(int n) {
  field f = hoosfield;
  for (int i = 0; i < n; i++) {
    if (i % 12 == 0) f = hoosfield;
    month(&f, weather_of(i), crops_of(i));
    if (i % 12 == 11) floats += total(&f) + active(&f.modern);
  }
}

static void carbon_months(int n) {
  carbon_field f = carbon_hoosfield;
  for (int i = 0; i < n; i++) {
    if (i % 12 == 0) f = carbon_hoosfield;
    f = carbon_month(f, weather_of(i), crops_of(i));
    if (i % 12 == 11) floats += carbon_total(f);
  }
}

// 24 months taken back, on a hundred fields, after they are booked.
enum { FIELDS = 100 };
static uint64_t proved_fields[FIELDS * ROTHC_STATE];
static kept_field plain_fields[FIELDS];

static uint64_t *proved_field(int i) { return proved_fields + lib.layout->state * i; }

static void book_fields(void) {
  uint64_t row[ROTHC_ROW];
  for (int i = 0; i < FIELDS; i++) {
    new_field(proved_field(i));
    plain_fields[i] = (kept_field){.now = hoosfield};
    for (int m = 0; m < ROTHC_KEPT_LIMIT; m++) {
      int64_t entries[ROTHC_ENTRIES];
      entries_of(entries, m);
      lib.month(proved_field(i), lib.layout->state, m + 1, entries, lib.layout->entries, row,
                ROTHC_ROW);
      keep_month(&plain_fields[i], weather_of(m), crops_of(m));
    }
  }
}

static void proved_back(int n) {
  for (int i = 0; i < n; i++)
    sink += lib.take_back(proved_field(i / ROTHC_KEPT_LIMIT), lib.layout->state);
  expect(proved_field(FIELDS - 1)[ROTHC_STATE_MONTHS] == 0, "a month was not taken back");
}

static void plain_back(int n) {
  for (int i = 0; i < n; i++) sink += take_back(&plain_fields[i / ROTHC_KEPT_LIMIT]);
  floats += total(&plain_fields[FIELDS - 1].now) + active(&plain_fields[FIELDS - 1].now.modern);
}

// A list of so many months from the new state, its rows written.
static uint64_t rows[ROTHC_MOST_ROWS * ROTHC_ROW];
static double plain_rows[ROTHC_MOST_ROWS * ROTHC_ROW];

static void run_list(uint64_t *state, int n) {
  const layout *l = lib.layout;
  uint64_t place;
  new_field(state);
  sink += lib.list(state, l->state, rothamsted, 12 * ROTHC_WEATHER, l->land, n * l->row, rows,
                   n * ROTHC_ROW, &place);
  expect(state[ROTHC_STATE_MONTHS] == (uint64_t)n, "a list was refused");
}

static void proved_list(int n) {
  uint64_t state[ROTHC_STATE];
  run_list(state, n);
}

static field run_plain_list(int n) {
  field f = hoosfield;
  const pools *c = &f.carbon;
  for (int j = 0; j < n; j++) {
    month(&f, weather_of(j), layouts[0].land + ROTHC_LAND * j);
    double *row = plain_rows + ROTHC_ROW * j;
    row[0] = c->dpm, row[1] = c->rpm, row[2] = c->bio, row[3] = c->hum;
    row[4] = f.iom, row[5] = f.gas, row[6] = f.deficit;
  }
  // a row is read, or the compiler would leave out the writing
  floats += total(&f) + active(&f.modern) + plain_rows[ROTHC_ROW * n - 1];
  return f;
}

static carbon_field run_carbon_list(int n) {
  carbon_field f = carbon_hoosfield;
  for (int j = 0; j < n; j++) {
    f = carbon_month(f, weather_of(j), layouts[0].land + ROTHC_LAND * j);
    double row[ROTHC_ROW] = {f.dpm, f.rpm, f.bio, f.hum, f.iom, f.gas, f.deficit};
    for (int k = 0; k < ROTHC_ROW; k++) plain_rows[ROTHC_ROW * j + k] = row[k];
  }
  floats += carbon_total(f) + plain_rows[ROTHC_ROW * n - 1];
  return f;
}

static void plain_list(int n) { run_plain_list(n); }
static void carbon_list(int n) { run_carbon_list(n); }

// A spin-up of so many months that never settles.
static void proved_spin_up(int n) {
  uint64_t state[ROTHC_STATE], result[ROTHC_RESULT];
  const layout *l = lib.layout;
  new_field(state);
  sink += lib.spin_up(state, l->state, cold, 12 * ROTHC_WEATHER, l->residue, 12 * l->row, n / 12,
                      result, ROTHC_RESULT);
  expect(state[ROTHC_STATE_MONTHS] == (uint64_t)n, "a spin-up settled");
}

// A year in ordinary C, and whether it settles: the total and each pool within a thousandth of a
// tonne of where the year began.
static int near(double start, double end) { return fabs(end - start) <= 0.001; }

static int year_settles(field *f, const int64_t *weather, const int64_t *land) {
  const field start = *f;
  const pools *a = &start.carbon, *b = &f->carbon;
  for (int m = 0; m < 12; m++) month(f, weather + ROTHC_WEATHER * m, land + ROTHC_LAND * m);
  return near(total(&start), total(f)) && near(a->dpm, b->dpm) && near(a->rpm, b->rpm) &&
         near(a->bio, b->bio) && near(a->hum, b->hum) && near(start.iom, f->iom);
}

static void plain_spin_up(int n) {
  field f = hoosfield;
  for (int year = 0; year < n / 12; year++)
    expect(!year_settles(&f, cold, layouts[0].residue), "a floating-point spin-up settled");
  floats += total(&f) + active(&f.modern);
}

// A spin-up until it settles, of a field where scrub was ploughed in: residue falls while humus
// rises, and the total stands still long before the pools do: 7,284 months, 607 years, by both
// sides.
enum { SETTLING = 7284, MOST_YEARS = 10000 };

static uint64_t settle(const library *one) {
  uint64_t state[ROTHC_STATE], result[ROTHC_RESULT];
  const layout *l = one->layout;
  expect(one->start(scrub_soil, ROTHC_SOIL, state, l->state) == 0, "a field was refused");
  one->spin_up(state, l->state, rothamsted, 12 * ROTHC_WEATHER, l->crop, 12 * l->row, MOST_YEARS,
               result, ROTHC_RESULT);
  return state[ROTHC_STATE_MONTHS];
}

static void proved_settling(int n) {
  expect(settle(&lib) == (uint64_t)n, "a spin-up settled in another year");
}

static void plain_settling(int n) {
  field f = scrub;
  int months = 12;
  while (!year_settles(&f, rothamsted, layouts[0].crop)) months += 12;
  expect(months == n, "a floating-point spin-up settled in another year");
  floats += total(&f) + active(&f.modern);
}

static void carbon_spin_up(int n) {
  carbon_field f = carbon_hoosfield;
  for (int year = 0; year < n / 12; year++) {
    double start = carbon_total(f);
    for (int m = 0; m < 12; m++)
      f = carbon_month(f, cold + ROTHC_WEATHER * m, layouts[0].residue + ROTHC_LAND * m);
    expect(fabs(carbon_total(f) - start) > 0.001, "a floating-point spin-up settled");
  }
  floats += carbon_total(f);
}

// Radiocarbon reports on a field whose active pools have, in each state, another random age up to
// 66,000 years, so that one in eleven or so is older than any age that is tried. There are so many
// states that the processor cannot learn the branches of their reports. The second plain side finds
// the age by halves, as the proved one does.
enum { AGES = 66000 };
static uint64_t modern_grams[NUMBERS][4];
static pools modern_tonnes[NUMBERS];

static void proved_reports(int pool, int n) {
  uint64_t state[ROTHC_STATE];
  new_field(state);
  for (int i = 0; i < n; i++) {
    int64_t made[ROTHC_REPORT];
    memcpy(state + ROTHC_STATE_MODERN_DPM, modern_grams[i % NUMBERS], sizeof *modern_grams);
    sink += lib.radiocarbon(state, ROTHC_STATE, pool, made, ROTHC_REPORT);
    sink += made[ROTHC_REPORT_DELTA] + made[ROTHC_REPORT_KIND] + made[ROTHC_REPORT_AGE];
  }
}

static inline void reports_by(age_function *age_of, int pool, int n) {
  field f = hoosfield;
  for (int i = 0; i < n; i++) {
    f.modern = modern_tonnes[i % NUMBERS];
    report made = report_on(&f, pool, age_of);
    floats += made.delta + made.dated + made.age;
  }
}

static void proved_all(int n) { proved_reports(ROTHC_POOL_ALL, n); }
static void plain_all(int n) { reports_by(age_by_log, ROTHC_POOL_ALL, n); }
static void halves_all(int n) { reports_by(age_by_halves, ROTHC_POOL_ALL, n); }
static void proved_hum(int n) { proved_reports(ROTHC_POOL_HUM, n); }
static void plain_hum(int n) { reports_by(age_by_log, ROTHC_POOL_HUM, n); }
static void halves_hum(int n) { reports_by(age_by_halves, ROTHC_POOL_HUM, n); }

// A table of so many lines, their temperatures from -5 to 20 degrees.
static char table[ROTHC_MOST_ROWS * 40 + 1];
static size_t table_size[ROTHC_MOST_ROWS + 1];
static int64_t read_rows[ROTHC_MOST_ROWS * ROTHC_WEATHER];
static double plain_read[ROTHC_MOST_ROWS * 3];

static void proved_table(int n) {
  uint64_t got = 0, place = 0;
  sink += lib.table((const uint8_t *)table, table_size[n], read_rows,
                    ROTHC_MOST_ROWS * ROTHC_WEATHER, &got, &place);
  expect(got == (uint64_t)n, "a table was refused");
}

static void plain_table(int n) {
  char next = table[table_size[n]];
  table[table_size[n]] = 0;
  expect(read_table(table, plain_read) == n, "the C reader did not read a table");
  table[table_size[n]] = next;
}

// What the second plain side of a job is, where it has one.
#define CARBON_ALONE "ordinary C on carbon alone"
#define BY_HALVES "ordinary C by halves, with exp"

static const struct job {
  const char *name, *what;
  void (*prepare)(void), (*proved)(int), (*plain)(int), (*second)(int);
  const char *second_name;
  int size, times;
} jobs[] = {
    {"survival", "the four survival numbers of a month, four exp", 0, proved_survival,
     plain_survival, 0, 0, NUMBERS, 1},
    {"terms", "DPM's survival number with its terms counted", 0, proved_terms, plain_terms, 0, 0,
     NUMBERS, 1},
    {"months", "a single month call", 0, proved_months, plain_months, carbon_months, CARBON_ALONE,
     12000, 1},
    {"back", "a month taken back", book_fields, proved_back, plain_back, 0, 0,
     FIELDS * ROTHC_KEPT_LIMIT, 1},
    {"list12", "a month of a list of 12", 0, proved_list, plain_list, carbon_list, CARBON_ALONE, 12,
     1000},
    {"list120", "a month of a list of 120", 0, proved_list, plain_list, carbon_list, CARBON_ALONE,
     120, 100},
    {"list1200", "a month of a list of 1,200", 0, proved_list, plain_list, carbon_list,
     CARBON_ALONE, 1200, 10},
    {"spin100", "a month of a spin-up of 100 years", 0, proved_spin_up, plain_spin_up,
     carbon_spin_up, CARBON_ALONE, 1200, 10},
    {"spin1000", "a month of a spin-up of 1,000 years", 0, proved_spin_up, plain_spin_up,
     carbon_spin_up, CARBON_ALONE, 12000, 1},
    {"spin10000", "a month of a spin-up of 10,000 years", 0, proved_spin_up, plain_spin_up,
     carbon_spin_up, CARBON_ALONE, 120000, 1},
    {"settling", "a month of a spin-up until it settles", 0, proved_settling, plain_settling, 0, 0,
     SETTLING, 1},
    {"radiocarbon", "a radiocarbon report on all five pools", 0, proved_all, plain_all, halves_all,
     BY_HALVES, NUMBERS, 1},
    {"radiocarbon-hum", "a radiocarbon report on HUM", 0, proved_hum, plain_hum, halves_hum,
     BY_HALVES, NUMBERS, 1},
    {"table12", "a line of a table of 12", 0, proved_table, plain_table, 0, 0, 12, 1000},
    {"table120", "a line of a table of 120", 0, proved_table, plain_table, 0, 0, 120, 100},
    {"table1200", "a line of a table of 1,200", 0, proved_table, plain_table, 0, 0, 1200, 10},
};
enum { JOBS = sizeof jobs / sizeof *jobs };

// A library of before change 2026-03 has no terms to count, one of before 2026-04 no reports, and
// one of before 2026-05 settles by the total alone, in another year.
static int makes(const library *one, const struct job *job) {
  if (job->proved == proved_terms) return one->survival_terms != 0;
  if (job->proved == proved_settling) return settle(one) == SETTLING;
  if (job->proved == proved_all || job->proved == proved_hum) return one->radiocarbon != 0;
  return 1;
}

static uint64_t drawn(void) {
  static uint64_t x = 88172645463325252ull;
  x ^= x << 13, x ^= x >> 7, x ^= x << 17;
  return x;
}

static void set_up_rows(layout *l) {
  for (int j = 0; j < ROTHC_MOST_ROWS; j++)
    memcpy(l->land + l->row * j, crops_of(j), l->row * sizeof *l->land);
  for (int m = 0; m < 12; m++) {
    int64_t row[ROTHC_LAND] = {crops_of(m)[0], 100000, 0, 1000};
    memcpy(l->residue + l->row * m, row, l->row * sizeof *row);
    // 0.26 t a month under a crop, from January to July and in December
    int64_t cropped[ROTHC_LAND] = {m < 7 || m == 11, m < 7 || m == 11 ? 260000 : 0, 0, 1000};
    memcpy(l->crop + l->row * m, cropped, l->row * sizeof *cropped);
  }
}

static void set_up_ages(void) {
  for (int i = 0; i < NUMBERS; i++) {
    double share = exp(-(double)(drawn() % AGES) / 8035);
    uint64_t *grams = modern_grams[i];
    for (int k = 0; k < 4; k++)
      grams[k] = (uint64_t)(share * (double)hoosfield_soil[ROTHC_SOIL_DPM + k]);
    modern_tonnes[i] = (pools){grams[0] / 1e6, grams[1] / 1e6, grams[2] / 1e6, grams[3] / 1e6};
  }
}

static void set_up(void) {
  size_t size = 0;
  for (int m = 0; m < 12; m++) {
    memcpy(cold + ROTHC_WEATHER * m, weather_of(m), ROTHC_WEATHER * sizeof *cold);
    cold[ROTHC_WEATHER * m] = -50;
  }
  for (int i = 0; i < LAYOUTS; i++) set_up_rows(&layouts[i]);
  for (int i = 0; i < NUMBERS; i++) numbers[i] = drawn() % 8363900001ull;
  for (int j = 0; j < ROTHC_MOST_ROWS; j++) {
    uint64_t x = drawn();
    double temperature = (1 + (int)(x % 250)) / 10.0 - (x % 3 ? 0 : 5.1);
    size += sprintf(table + size, "%d;%.1f;%.1f;%.1f\n", j + 1, temperature, x / 251 % 1500 / 10.0,
                    x / 377 % 1300 / 10.0);
    table_size[j + 1] = size;
  }
  set_up_ages();
}

// ---- both sides make the same

// A library and the C reader give the same numbers for a table.
static void compare_tables(void) {
  proved_table(ROTHC_MOST_ROWS), plain_table(ROTHC_MOST_ROWS);
  for (int j = 0; j < ROTHC_MOST_ROWS; j++)
    for (int k = 0; k < 3; k++)
      expect(read_rows[ROTHC_WEATHER * j + k] == lround(10 * plain_read[3 * j + k]),
             "a line of a table differs");
}

static void compare_pools(const uint64_t *grams, pools tonnes, const char *what) {
  const double wanted[4] = {tonnes.dpm, tonnes.rpm, tonnes.bio, tonnes.hum};
  for (int k = 0; k < 4; k++)
    expect(fabs(grams[k] / 1e6 - wanted[k]) <= 0.001 * wanted[k], what);
}

// After a century a library's pools, and its modern grams where it has any, are within a thousandth
// of floating point's.
static void compare_months(void) {
  uint64_t state[ROTHC_STATE];
  run_list(state, ROTHC_MOST_ROWS);
  field f = run_plain_list(ROTHC_MOST_ROWS);
  carbon_field c = run_carbon_list(ROTHC_MOST_ROWS);
  compare_pools(state + ROTHC_SOIL_DPM, f.carbon, "the carbon of a list differs");
  compare_pools(state + ROTHC_SOIL_DPM, (pools){c.dpm, c.rpm, c.bio, c.hum},
                "the carbon of a list differs");
  if (lib.radiocarbon)
    compare_pools(state + ROTHC_STATE_MODERN_DPM, f.modern, "the radiocarbon of a list differs");
}

// Deltas are at most a hundredth and ages at most a year apart: floating point rounds.
static void compare_report(const uint64_t *state, const field *f, int pool) {
  age_function *const ways[2] = {age_by_log, age_by_halves};
  int64_t made[ROTHC_REPORT];
  expect(lib.radiocarbon(state, ROTHC_STATE, pool, made, ROTHC_REPORT) == 0,
         "a report was refused");
  for (int k = 0; k < 2; k++) {
    report plain = report_on(f, pool, ways[k]);
    expect(made[ROTHC_REPORT_KIND] == plain.dated, "a report has an age and another has none");
    expect(fabs(made[ROTHC_REPORT_DELTA] - plain.delta) <= 1, "a report's delta differs");
    expect(fabs(made[ROTHC_REPORT_AGE] - plain.age) <= 1, "a report's age differs");
  }
}

static void compare_reports(void) {
  uint64_t state[ROTHC_STATE];
  field f = hoosfield;
  new_field(state);
  for (int i = 0; i < NUMBERS; i++) {
    memcpy(state + ROTHC_STATE_MODERN_DPM, modern_grams[i], sizeof *modern_grams);
    f.modern = modern_tonnes[i];
    for (int pool = ROTHC_POOL_DPM; pool <= ROTHC_POOL_ALL; pool++) compare_report(state, &f, pool);
  }
}

static void compare(const library *one) {
  lib = *one;
  compare_tables();
  compare_months();
  if (lib.radiocarbon) compare_reports();
}

// ---- times

enum { RUNS = 31, MOST_LIBRARIES = 8 };

static double now(void) {
  struct timespec t;
  clock_gettime(CLOCK_MONOTONIC, &t);
  return t.tv_sec + 1e-9 * t.tv_nsec;
}

// Nanoseconds for one of a side's `size` months, numbers, reports or lines.
static double timed(const struct job *job, void (*side)(int)) {
  if (job->prepare) job->prepare();
  double start = now();
  for (int i = 0; i < job->times; i++) side(job->size);
  return (now() - start) * 1e9 / ((double)job->size * job->times);
}

static int by_size(const void *a, const void *b) {
  double x = *(const double *)a, y = *(const double *)b;
  return x < y ? -1 : x > y;
}

static double median(const double *values) {
  double sorted[RUNS];
  memcpy(sorted, values, sizeof sorted);
  qsort(sorted, RUNS, sizeof *sorted, by_size);
  return sorted[RUNS / 2];
}

// The ratio of each run to the other side's beside it: the median and the quarters.
static void print_ratio(const double *times, const double *others, const char *other) {
  double ratio[RUNS];
  for (int i = 0; i < RUNS; i++) ratio[i] = times[i] / others[i];
  qsort(ratio, RUNS, sizeof *ratio, by_size);
  printf("    ratio to %s %.2f (quarters %.2f to %.2f)\n", other, ratio[RUNS / 2], ratio[RUNS / 4],
         ratio[3 * RUNS / 4]);
}

// The sides are the libraries, the plain one, and the second plain one where there is one. Each run
// begins with another side.
static void time_job(const struct job *job, const library *libraries, char **names, int count) {
  double times[MOST_LIBRARIES + 2][RUNS];
  const double *plain = times[count], *second = times[count + 1];
  int sides = count + (job->second ? 2 : 1);
  for (int run = 0; run < RUNS; run++) {
    for (int turn = 0; turn < sides; turn++) {
      int k = (run + turn) % sides;
      if (k < count && !makes(&libraries[k], job)) continue;
      lib = libraries[k < count ? k : 0];
      times[k][run] = timed(job, k < count ? job->proved : k == count ? job->plain : job->second);
    }
  }
  printf("%s\n", job->what);
  for (int k = 0; k < count; k++) {
    if (!makes(&libraries[k], job)) continue;
    printf("  %s: %.2f ns\n", names[k], median(times[k]));
    print_ratio(times[k], plain, "ordinary C");
    if (job->second) print_ratio(times[k], second, job->second_name);
    for (int other = 1; k == 0 && other < count; other++)
      if (makes(&libraries[other], job)) print_ratio(times[0], times[other], names[other]);
  }
  printf("  ordinary C: %.2f ns\n", median(plain));
  if (job->second) printf("  %s: %.2f ns\n", job->second_name, median(second));
}

static const struct job *named(const char *name) {
  for (int i = 0; i < JOBS; i++)
    if (strcmp(jobs[i].name, name) == 0) return &jobs[i];
  fprintf(stderr, "no job %s\n", name), exit(2);
}

// One side of a job, so many times. Returns the job's size, or 0 where there is no such side.
static int run_side(const struct job *job, const char *name, int times) {
  void (*side)(int) = makes(&lib, job) ? job->proved : 0;
  if (strcmp(name, "plain") == 0) side = job->plain;
  if (strcmp(name, "second") == 0) side = job->second;
  if (!side) return 0;
  for (int i = 0; i < times; i++) {
    if (job->prepare) job->prepare();
    side(job->size);
  }
  return job->size;
}

int main(int argc, char **argv) {
  set_up();
  if (argc == 6 && strcmp(argv[1], "--count") == 0) {
    lib = load(argv[5]);
    printf("%d\n", run_side(named(argv[3]), argv[2], atoi(argv[4])));
    return sink == 1 && floats == 1;
  }
  if (argc < 2 || argc > MOST_LIBRARIES + 1)
    return fprintf(stderr, "usage: bench-rothc LIBRARY ..\n"), 2;
  library libraries[MOST_LIBRARIES];
  for (int i = 1; i < argc; i++) libraries[i - 1] = load(argv[i]), compare(&libraries[i - 1]);
  for (int i = 0; i < JOBS; i++) time_job(&jobs[i], libraries, argv + 1, argc - 1);
  return sink == 1 && floats == 1;
}
