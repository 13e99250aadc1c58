// Times two programs on one input, process start included, in alternation: alternate RUNS INPUT
// FIRST SECOND. Their output goes to a pipe that is read to its end, as a user's would. Writes both
// medians and the median ratio of the pairs.
#include <fcntl.h>
#include <stdio.h>
#include <stdlib.h>
#include <sys/wait.h>
#include <time.h>
#include <unistd.h>

static double now(void) {
  struct timespec t;
  clock_gettime(CLOCK_MONOTONIC, &t);
  return t.tv_sec + 1e-9 * t.tv_nsec;
}

static double run(const char *program, const char *input) {
  static char buffer[1 << 16];
  int ends[2], status;
  double start = now();
  if (pipe(ends)) exit(2);
  pid_t child = vfork();
  if (child == 0) {
    int in = open(input, O_RDONLY);
    if (in < 0) _exit(127);
    dup2(in, 0), dup2(ends[1], 1), close(ends[0]);
    execl(program, program, (char *)0);
    _exit(127);
  }
  close(ends[1]);
  while (read(ends[0], buffer, sizeof buffer) > 0) {}
  close(ends[0]);
  waitpid(child, &status, 0);
  if (!WIFEXITED(status) || WEXITSTATUS(status) != 0) fprintf(stderr, "%s did not run\n", program), exit(2);
  return (now() - start) * 1e3;
}

static int by_size(const void *a, const void *b) {
  double x = *(const double *)a, y = *(const double *)b;
  return x < y ? -1 : x > y;
}

int main(int argc, char **argv) {
  if (argc != 5) return 2;
  int runs = atoi(argv[1]);
  if (runs < 1) return 2;
  double *first = malloc(runs * sizeof *first), *second = malloc(runs * sizeof *second), *ratio = malloc(runs * sizeof *ratio);
  for (int i = 0; i < runs; i++) {
    first[i] = run(argv[3], argv[2]), second[i] = run(argv[4], argv[2]);
    ratio[i] = first[i] / second[i];
  }
  qsort(first, runs, sizeof *first, by_size), qsort(second, runs, sizeof *second, by_size), qsort(ratio, runs, sizeof *ratio, by_size);
  printf("medians of %d runs in alternation: %.3f ms and %.3f ms, ratio of the medians %.2f; ratios of pairs %.2f (quarters %.2f to %.2f)\n", runs,
         first[runs / 2], second[runs / 2], first[runs / 2] / second[runs / 2], ratio[runs / 2], ratio[runs / 4], ratio[3 * runs / 4]);
  return 0;
}
