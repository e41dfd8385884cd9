/* Where the steps of scripts/measure/steps begin and end, loaded before the C library. A request of 2^44 and w bytes begins a
   span of steps of the row w, one of 2^45 and n bytes ends it after n steps, and one of 2^46 and w bytes ends a series
   of spans of that row; all are refused. At the end it prints, for each row, how many steps a series had and the least
   of its series, in nanoseconds of processor a step; what an empty span takes is taken off. Under callgrind, which
   counts between the marks alone, each series gets a dump with the row as its trigger instead. */
#define _GNU_SOURCE
#include <dlfcn.h>
#include <stddef.h>
#include <stdio.h>
#include <stdlib.h>
#include <time.h>
#include <valgrind/callgrind.h>

#define BEGIN ((size_t)1 << 44)
#define END ((size_t)1 << 45)
#define SERIES ((size_t)1 << 46)
#define ROWS 64

static double least[ROWS];
static long counts[ROWS], steps, spans;
static double spent, began, empty;

static double now(void) {
  struct timespec at;
  clock_gettime(CLOCK_PROCESS_CPUTIME_ID, &at);
  return at.tv_sec * 1e9 + at.tv_nsec;
}

/* what an empty span takes: the least of many */
static double nothing(void) {
  double best = 1e9;
  for (int at = 0; at < 10000; at++) {
    double first = now(), took = now() - first;
    if (took < best) best = took;
  }
  return best;
}

static void end_series(size_t row) {
  char name[32];
  if (RUNNING_ON_VALGRIND) {
    snprintf(name, sizeof name, "row %zu of %ld", row, steps);
    CALLGRIND_DUMP_STATS_AT(name);
  } else if (steps) {
    if (!empty) empty = nothing();
    double each = (spent - empty * spans) / steps;
    if (!counts[row] || each < least[row]) least[row] = each;
  }
  counts[row] = steps;
  steps = spans = 0, spent = 0;
}

static int marked(size_t size) {
  static int started;
  if (size < BEGIN) return 0;
  if (size >= SERIES) {
    end_series(size - SERIES);
  } else if (size >= END) {
    if (RUNNING_ON_VALGRIND) CALLGRIND_TOGGLE_COLLECT;
    else spent += now() - began;
    steps += size - END, spans++;
  } else {
    if (RUNNING_ON_VALGRIND && !started) {
      CALLGRIND_START_INSTRUMENTATION;
      started = 1;
    }
    if (RUNNING_ON_VALGRIND) CALLGRIND_TOGGLE_COLLECT;
    else began = now();
  }
  return 1;
}

#define REAL(name) static __typeof__(&name) real; if (!real) real = (__typeof__(real))dlsym(RTLD_NEXT, #name)

void *malloc(size_t size) {
  REAL(malloc);
  return marked(size) ? NULL : real(size);
}

void *aligned_alloc(size_t align, size_t size) {
  REAL(aligned_alloc);
  return marked(size) ? NULL : real(align, size);
}

int posix_memalign(void **block, size_t align, size_t size) {
  REAL(posix_memalign);
  return marked(size) ? 12 : real(block, align, size);
}

__attribute__((destructor)) static void tell(void) {
  if (RUNNING_ON_VALGRIND) return;
  for (int row = 0; row < ROWS; row++)
    if (counts[row]) fprintf(stderr, "%d %ld %.0f\n", row, counts[row], least[row]);
}
