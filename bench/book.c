// An ordinary floating-point RothC for a book, as one would write it in C: stdio, libm's exp,
// doubles. bench/book times it beside the proved program on the same book. It checks nothing and
// rounds only what it prints.
#include <math.h>
#include <stdio.h>

static double temperature[1200], rain[1200], evaporation[1200];

int main(void) {
  double clay, depth, kind, dpm, rpm, bio, hum, iom, deficit = 0, gas = 0;
  int soils, rows, months;
  if (scanf("SOIL %d %lf %lf %lf %lf %lf %lf %lf %lf", &soils, &clay, &depth, &kind, &dpm, &rpm, &bio, &hum, &iom) != 9) return 1;
  if (scanf(" WEATHER %d", &rows) != 1 || rows < 1 || rows > 1200) return 1;
  for (int i = 0; i < rows; i++) {
    if (scanf("%lf %lf %lf", &temperature[i], &rain[i], &evaporation[i]) != 3) return 1;
  }
  if (scanf(" LAND %d", &months) != 1) return 1;
  clay /= 10;
  const double largest = (20.0 + 1.3 * clay - 0.01 * clay * clay) * depth / 23;
  const double ratio = 1.67 * (1.85 + 1.60 * exp(-0.0786 * clay));
  const double shares[] = {0, 1.44 / 2.44, 0.67 / 1.67, 0.25 / 1.25}, decomposable = shares[(int)kind];
  printf("POOLS %d\n", months);
  for (int j = 0; j < months; j++) {
    int cover, i = j % rows;
    double plant, manure;
    if (scanf("%d %lf %lf", &cover, &plant, &manure) != 3) return 1;
    double limit = cover ? largest : fmax(deficit, largest / 1.8);
    deficit = fmin(fmax(deficit + 0.075 * evaporation[i] - 0.1 * rain[i], 0), limit);
    double b = deficit < 0.444 * largest ? 1 : 0.2 + 0.8 * (largest - deficit) / (largest - 0.444 * largest);
    double a = 47.91 / (1 + exp(106.06 / (temperature[i] / 10 + 18.27)));
    double rate = a * b * (cover ? 0.6 : 1.0) / 12;
    double d = dpm * exp(-10 * rate), r = rpm * exp(-0.3 * rate), o = bio * exp(-0.66 * rate), h = hum * exp(-0.02 * rate);
    double lost = dpm - d + rpm - r + bio - o + hum - h, formed = lost / (1 + ratio);
    dpm = d + decomposable * plant + 0.49 * manure;
    rpm = r + (1 - decomposable) * plant + 0.49 * manure;
    bio = o + 0.46 * formed;
    hum = h + 0.54 * formed + 0.02 * manure;
    gas += lost - formed;
    printf("%d %.0f %.0f %.0f %.0f %.0f %.0f %.0f\n", j + 1, dpm, rpm, bio, hum, iom, lost - formed, deficit * 2070000);
  }
  printf("TOTAL %.0f %.0f\n", dpm + rpm + bio + hum + iom, gas);
  return 0;
}
