/* Memory that is refused: each allocation of a call, alone and with all behind it. The call says so and has written
 * nothing, or it gives what it gives where nothing is refused; and it gives all back that it took.
 *
 * The program is linked with --wrap for the three calls below. */
#include <stdlib.h>
#include <string.h>

#include "counting.h"
#include "pac.h"

#define ROOM 1024
#define UNTOUCHED 0xa5

void *__real_malloc(size_t size);
void *__real_realloc(void *old, size_t size);
void __real_free(void *old);

/* The number of the allocation that is refused, from 1, and whether all behind it are; and what is held. */
static struct {
  long calls, refused, held;
  int is_lasting;
} heap;

static int is_refused(void) {
  heap.calls++;
  return heap.refused != 0 && (heap.calls == heap.refused || (heap.is_lasting && heap.calls > heap.refused));
}

void *__wrap_malloc(size_t size) {
  void *piece = is_refused() ? NULL : __real_malloc(size);
  heap.held += piece != NULL;
  return piece;
}

void *__wrap_realloc(void *old, size_t size) {
  void *piece = is_refused() ? NULL : __real_realloc(old, size);
  heap.held += piece != NULL && old == NULL;
  return piece;
}

void __wrap_free(void *old) {
  heap.held -= old != NULL;
  __real_free(old);
}

static const char script[] =
    "function inNet(ip) { return isInNet(ip, \"10.0.0.0\", \"255.0.0.0\"); }\n"
    "function FindProxyForURL(url, host) {\n"
    "  var parts = host.toLowerCase().split(\".\"), o = {name: [1, 2, 3].join()};\n"
    "  try { if (parts.length > 1) throw new Error(\"x\" + url); } catch (e) { alert(e.message); }\n"
    "  return inNet(dnsResolve(host)) ? \"PROXY \" + parts.reverse().join(\".\") + \":80; DIRECT\" : o.name; }\n";

enum call { DONE, NAME_WANTED, SHORT, BAD_SCRIPT, BAD_URL, BAD_NAMES, CHECK, PROXIES, CALLS };

static uint32_t call(enum call which, uint8_t *output, size_t *whole) {
  const char *url = which == BAD_URL ? "a:" : "http://www.a.example/";
  const char *names = which == NAME_WANTED ? "" : which == BAD_NAMES ? "www.a.example" : "www.a.example 10.0.0.1";
  size_t length = sizeof script - (which == BAD_SCRIPT ? 3 : 1);
  struct pac_settings settings = {.moment = 1700000000, .fuel = PAC_USUAL_FUEL, .my_ip = 0x7f000001};
  if (which == CHECK) return pac_check((const uint8_t *)script, length, output, ROOM, whole);
  if (which == PROXIES) return pac_proxies((const uint8_t *)"PROXY a; DIRECT", 15, output, ROOM, whole);
  return pac_find_proxy((const uint8_t *)script, length, (const uint8_t *)url, strlen(url), (const uint8_t *)names,
                        strlen(names), &settings, output, which == SHORT ? 9 : ROOM, whole);
}

/* What a call came to. */
struct end {
  uint32_t status;
  size_t whole;
  uint8_t output[ROOM];
};

static struct end end_of(enum call which, long refused, int is_lasting) {
  struct end end = {0};
  memset(end.output, UNTOUCHED, ROOM);
  heap.calls = heap.held = 0;
  heap.refused = refused;
  heap.is_lasting = is_lasting;
  end.status = call(which, end.output, &end.whole);
  return end;
}

static int is_end(const struct end *end, uint32_t status, size_t whole, const uint8_t *output) {
  return end->status == status && end->whole == whole && memcmp(end->output, output, ROOM) == 0;
}

/* How many of a call's runs gave up. Each gives all back. */
static long expect_ends(enum call which, int is_lasting) {
  struct end whole = end_of(which, 0, 0), nothing = {0};
  long count = heap.calls, given_up = 0, good = 0;
  memset(nothing.output, UNTOUCHED, ROOM);
  for (long refused = 1; refused <= count; refused++) {
    struct end end = end_of(which, refused, is_lasting);
    int gave_up = is_end(&end, PAC_MEMORY, 0, nothing.output);
    given_up += gave_up;
    good += heap.held == 0 && (gave_up || is_end(&end, whole.status, whole.whole, whole.output));
  }
  expect(good == count, "a call without memory gives up, or gives what it gives with memory, and gives all back");
  return given_up;
}

int main(void) {
  static const uint32_t statuses[CALLS] = {PAC_DONE,    PAC_NAME_WANTED, PAC_SHORT, PAC_BAD_SCRIPT,
                                           PAC_BAD_URL, PAC_BAD_NAMES,   PAC_DONE,  PAC_DONE};
  for (enum call which = DONE; which < CALLS; which++) {
    expect(end_of(which, 0, 0).status == statuses[which], "a call with memory ends as it should");
    expect(heap.calls > 0 && heap.held == 0, "it takes memory, and gives all back");
    long given_up = expect_ends(which, 0) + expect_ends(which, 1);
    expect(given_up > 0, "there are runs that give up");
  }
  return counted("memory");
}
