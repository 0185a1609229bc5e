/* Calls over and over leave the process as large as it was, however they end. It reads the script of a company.
 *
 * What counts is what malloc has taken from the system: what is touched of it, and of the program, differs a little. A
 * piece of memory that leaked in each round, be it of one byte, would make it grow by 320,000 bytes. */
#include <malloc.h>
#include <stdlib.h>
#include <string.h>

#include "counting.h"
#include "pac.h"

#define SCRIPT "../examples/company.pac"
#define FIRST_ROUNDS 500
#define ROUNDS 10000
#define ROOM 4096

static uint8_t script[PAC_MOST_BYTES];
static size_t script_length;

static void read_script(void) {
  FILE *file = fopen(SCRIPT, "rb");
  if (file == NULL) abort();
  script_length = fread(script, 1, sizeof script, file);
  fclose(file);
}

/* The bytes that malloc has of the system. */
static size_t held(void) {
  struct mallinfo2 all = mallinfo2();
  return all.arena + all.hblkhd;
}

static uint32_t find(const char *url, const char *names, size_t room) {
  struct pac_settings settings = {.moment = 1700000000, .fuel = PAC_USUAL_FUEL, .my_ip = 0x7f000001};
  uint8_t output[ROOM];
  size_t whole;
  return pac_find_proxy(script, script_length, (const uint8_t *)url, strlen(url), (const uint8_t *)names, strlen(names),
                        &settings, output, room, &whole);
}

/* Whether each kind of call ends as it should. */
static int one_round(void) {
  const char *shop = "http://shop.example.org/", *list = "PROXY a; DIRECT";
  uint8_t output[ROOM];
  size_t whole;
  return find(shop, "shop.example.org 203.0.113.9", ROOM) == PAC_DONE && find(shop, "", ROOM) == PAC_NAME_WANTED &&
         find(shop, "shop.example.org -", 9) == PAC_SHORT && find("a:", "", ROOM) == PAC_BAD_URL &&
         find(shop, "a", ROOM) == PAC_BAD_NAMES && pac_check(script, script_length, output, ROOM, &whole) == PAC_DONE &&
         pac_check(script, script_length - 3, output, ROOM, &whole) == PAC_BAD_SCRIPT &&
         pac_proxies((const uint8_t *)list, strlen(list), output, ROOM, &whole) == PAC_DONE;
}

static void expect_rounds(int rounds) {
  int good = 0;
  for (int i = 0; i < rounds; i++) good += one_round();
  expect(good == rounds, "each call ends as it should");
}

int main(void) {
  read_script();
  expect_rounds(FIRST_ROUNDS);
  size_t before = held();
  expect_rounds(ROUNDS);
  expect(held() == before, "the process is as large as it was");
  return counted("constant");
}
