/* Counts what holds in a test, and tells it at its end. */
#ifndef COUNTING_H
#define COUNTING_H

#include <stdio.h>

static int passed, failed;

static void expect(int holds, const char *what) {
  passed += holds != 0;
  failed += holds == 0;
  if (!holds) printf("does not hold: %s\n", what);
}

/* The status of the test. */
static int counted(const char *test) {
  printf("c/tests/%s: %d passed, %d failed\n", test, passed, failed);
  return failed == 0 && passed > 0 ? 0 : 1;
}

#endif
