/* Calls of several threads at once, each with the stack that the header asks for, give what each gives alone. How often
 * each thread calls may stand in the environment's ROUNDS. */
#include <pthread.h>
#include <stdlib.h>
#include <string.h>

#include "counting.h"
#include "pac.h"

#define THREADS 8
#define STACK (1 << 20)
#define ROUNDS 1000
#define ROOM 512

static const char script[] =
    "var last = \"\";\n"
    "function FindProxyForURL(url, host) {\n"
    "  for (var i = 0; i < 20; i++) last += host.charAt(i);\n"
    "  return last == host ? \"PROXY \" + dnsResolve(host) + \":80; DIRECT\" : \"DIRECT\"; }\n";

/* What one thread asks for, and what is to come of it. */
struct work {
  char url[64], names[64];
  char report[ROOM];
  size_t length;
  int rounds, differing;
};

static uint32_t find(const struct work *work, char *output, size_t *whole) {
  struct pac_settings settings = {.moment = 1700000000, .fuel = PAC_USUAL_FUEL, .my_ip = 0x7f000001};
  return pac_find_proxy((const uint8_t *)script, sizeof script - 1, (const uint8_t *)work->url, strlen(work->url),
                        (const uint8_t *)work->names, strlen(work->names), &settings, (uint8_t *)output, ROOM, whole);
}

static void *work_on(void *given) {
  struct work *work = given;
  for (int round = 0; round < work->rounds; round++) {
    char output[ROOM];
    size_t whole;
    uint32_t status = find(work, output, &whole);
    work->differing += status != PAC_DONE || whole != work->length || memcmp(output, work->report, whole) != 0;
  }
  return NULL;
}

/* The work of a thread by its number, with what the call gives alone; that is what the address says. */
static void prepare(struct work *work, int number, int rounds) {
  char line[64];
  snprintf(work->url, sizeof work->url, "http://host%d.example/", number);
  snprintf(work->names, sizeof work->names, "host%d.example 10.0.0.%d\n", number, number);
  snprintf(line, sizeof line, "\nresult PROXY 10.0.0.%d:80; DIRECT\n", number);
  work->rounds = rounds;
  work->differing = 0;
  expect(find(work, work->report, &work->length) == PAC_DONE, "a call alone is done");
  work->report[work->length] = 0;
  expect(strstr(work->report, line) != NULL, "it gives the address of its thread");
}

int main(void) {
  const char *rounds = getenv("ROUNDS");
  struct work works[THREADS];
  pthread_t threads[THREADS];
  pthread_attr_t small;
  if (pthread_attr_init(&small) != 0 || pthread_attr_setstacksize(&small, STACK) != 0) abort();
  for (int i = 0; i < THREADS; i++) prepare(&works[i], i, rounds == NULL ? ROUNDS : atoi(rounds));
  for (int i = 0; i < THREADS; i++)
    if (pthread_create(&threads[i], &small, work_on, &works[i]) != 0) abort();
  for (int i = 0; i < THREADS; i++) {
    pthread_join(threads[i], NULL);
    expect(works[i].differing == 0, "each call of a thread gives what one alone gives");
  }
  pthread_attr_destroy(&small);
  return counted("threads");
}
