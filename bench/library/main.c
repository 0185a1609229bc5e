/* Times calls of an engine: PROGRAM once|anew CALLS SCRIPT HELPERS URL HOST..
 *
 * Finds proxies for the URLs in turn, so many times in all. `once` takes the script before the first of them, `anew`
 * takes and drops it for each. Writes what the first calls returned, and the seconds of one call: those of the
 * processor, in the best of ten parts of the calls, since other work of the machine slows some of them. */
#define _POSIX_C_SOURCE 200809L
#include <stdio.h>
#include <stdlib.h>
#include <string.h>
#include <time.h>

#include "engine.h"

#define PARTS 10

static char *contents(const char *name) {
  FILE *file = fopen(name, "rb");
  if (file == NULL) exit(2);
  size_t room = 1 << 20;
  char *text = calloc(room, 1);
  if (text == NULL || fread(text, 1, room - 1, file) == room - 1) exit(2);
  fclose(file);
  return text;
}

static double seconds(void) {
  struct timespec now;
  clock_gettime(CLOCK_PROCESS_CPUTIME_ID, &now);
  return (double)now.tv_sec + (double)now.tv_nsec / 1e9;
}

/* What is called: with which words, and whether the script is taken for each call. */
static struct {
  char *script, *helpers, **urls;
  int url_count, is_anew;
} asked;

static void call(int number) {
  char **url = asked.urls + 2 * (number % asked.url_count);
  if (asked.is_anew) engine_take(asked.script, asked.helpers);
  const char *found = engine_find(url[0], url[1]);
  if (number < asked.url_count) printf("%s\n", found == NULL ? "nothing" : found);
  if (asked.is_anew) engine_drop();
}

int main(int count, char **words) {
  if (count < 7) return 2;
  int calls = atoi(words[2]), number = 0;
  double best = 1e9;
  asked.is_anew = strcmp(words[1], "anew") == 0;
  asked.script = contents(words[3]);
  asked.helpers = contents(words[4]);
  asked.urls = words + 5;
  asked.url_count = (count - 5) / 2;
  if (!asked.is_anew) engine_take(asked.script, asked.helpers);
  for (int part = 1; part <= PARTS; part++) {
    int first = number;
    double start = seconds();
    while (number < calls * part / PARTS) call(number++);
    double each = (seconds() - start) / (number - first);
    if (each < best) best = each;
  }
  if (!asked.is_anew) engine_drop();
  printf("%.9f\n", best);
  free(asked.script);
  free(asked.helpers);
  return 0;
}
