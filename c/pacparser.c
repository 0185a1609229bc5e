/* Five calls of pacparser over pac_find_proxy. */
#define _GNU_SOURCE
#include "pacparser.h"

#include <arpa/inet.h>
#include <netdb.h>
#include <stdbool.h>
#include <stdio.h>
#include <stdlib.h>
#include <string.h>
#include <time.h>
#include <unistd.h>

#include "pac.h"

#define LOOPBACK 0x7f000001
/* Bytes that a line of a refusal never needs more of. */
#define LINE_ROOM 128

/* What is kept from call to call. */
static struct {
  bool is_ready;
  char *script;
  char *answer;
  bool has_ip;
  uint32_t my_ip;
} kept;

/* The run of the script for a URL. `output` has a zero behind what is written. */
struct run {
  const char *url;
  struct pac_settings settings;
  char names[PAC_MOST_NAMES * 2 * PAC_NAME_LINE + 1];
  char *output;
  size_t room;
};

/* How a look-up ends: with an address, with the word that there is none, or by a failure that says neither. */
enum looked_up { FOUND, NOT_THERE, NOT_TOLD };

static void say(const char *call, const char *what, const char *text) {
  fprintf(stderr, "pacparser_%s: %s%s\n", call, what, text);
}

/* Why a call has no answer: the line that it wrote, or what its status stands for. */
static const char *reason(uint32_t status, char *line) {
  switch (status) {
    case PAC_BAD_SETTINGS:
      return "the clock's moment is out of range";
    case PAC_TOO_LONG:
      return "the script is too long";
    case PAC_MEMORY:
      return "no memory";
    default:
      line[strcspn(line, "\n")] = 0;
      return line;
  }
}

/* The octets of an address of either family. */
static const void *octets_of(const struct sockaddr *address) {
  return address->sa_family == AF_INET ? (const void *)&((const struct sockaddr_in *)address)->sin_addr
                                       : (const void *)&((const struct sockaddr_in6 *)address)->sin6_addr;
}

/* The first address of a name in a family, as text. */
static enum looked_up look_up(const char *name, int family, char address[INET6_ADDRSTRLEN]) {
  struct addrinfo wanted = {.ai_family = family}, *found;
  int error = getaddrinfo(name, NULL, &wanted, &found);
  if (error == EAI_NONAME || error == EAI_NODATA || error == EAI_ADDRFAMILY) return NOT_THERE;
  if (error != 0) return NOT_TOLD;
  inet_ntop(family, octets_of(found->ai_addr), address, INET6_ADDRSTRLEN);
  freeaddrinfo(found);
  return FOUND;
}

static void add_line(struct run *run, const char *address) {
  size_t length = strlen(run->names);
  snprintf(run->names + length, sizeof run->names - length, "%s %s\n", run->output, address);
}

static enum looked_up add_address(struct run *run, int family) {
  char address[INET6_ADDRSTRLEN];
  enum looked_up end = look_up(run->output, family, address);
  if (end == FOUND) add_line(run, address);
  return end;
}

/* Whether the script speaks of a function that asks for IPv6 addresses; else these are not looked up. */
static bool asks_for_ipv6(void) {
  return strstr(kept.script, "dnsResolveEx") != NULL || strstr(kept.script, "isResolvableEx") != NULL;
}

/* Adds the lines of the name that is wanted; false where a look-up fails. */
static bool add_name(struct run *run) {
  enum looked_up six = asks_for_ipv6() ? add_address(run, AF_INET6) : NOT_THERE;
  enum looked_up four = six == NOT_TOLD ? NOT_TOLD : add_address(run, AF_INET);
  if (six == NOT_THERE && four == NOT_THERE) add_line(run, "-");
  return four != NOT_TOLD;
}

static bool make_room(struct run *run, size_t room) {
  char *output = realloc(run->output, room + 1);
  if (output == NULL) return false;
  run->output = output;
  run->room = room;
  run->output[0] = 0;
  return true;
}

/* One call over the names so far; where the room was short, it is made. */
static uint32_t call_once(struct run *run) {
  size_t whole;
  uint32_t status = pac_find_proxy((const uint8_t *)kept.script, strlen(kept.script), (const uint8_t *)run->url,
                                   strlen(run->url), (const uint8_t *)run->names, strlen(run->names), &run->settings,
                                   (uint8_t *)run->output, run->room, &whole);
  if (status == PAC_SHORT) return make_room(run, whole) ? PAC_SHORT : PAC_MEMORY;
  run->output[whole] = 0;
  return status;
}

/* Calls until no name is wanted. Where a look-up fails it stays at PAC_NAME_WANTED, with the name. */
static uint32_t call_with_names(struct run *run) {
  uint32_t status = make_room(run, 4096) ? PAC_SHORT : PAC_MEMORY;
  while (status == PAC_SHORT || (status == PAC_NAME_WANTED && add_name(run))) status = call_once(run);
  return status;
}

/* The unit that a report spells here as `\\u` and four digits; 0 where it does not. */
static unsigned long unit_at(const char *text) {
  char digits[5] = "";
  if (text[0] == '\\' && text[1] == 'u') memcpy(digits, text + 2, 4);
  return strtoul(digits, NULL, 16);
}

/* Copies a text of a report as it was before it was spelled, but for units behind 127 and zeros. */
static void unescape(char *to, const char *from) {
  while (*from != 0) {
    unsigned long unit = unit_at(from);
    bool is_ascii = 0 < unit && unit < 128;
    bool is_backslash = from[0] == '\\' && from[1] == '\\';
    *to++ = is_ascii ? (char)unit : *from;
    from += is_ascii ? 6 : is_backslash ? 2 : 1;
  }
  *to = 0;
}

/* Takes the result of a report over as the answer, or says the fault. */
static char *answer_of(char *report) {
  char *result = strstr(report, "\nresult "), *fault = strstr(report, "\nfault ");
  if (result == NULL) {
    say("find_proxy", "", reason(PAC_DONE, fault + 1));
    free(report);
    return NULL;
  }
  result += strlen("\nresult ");
  result[strcspn(result, "\n")] = 0;
  unescape(report, result);
  kept.answer = report;
  return report;
}

/* This machine's address. Its own name is looked up where no address was set and the script speaks of it. */
static uint32_t my_ip(void) {
  char name[256] = "", text[INET6_ADDRSTRLEN];
  struct in_addr address = {htonl(LOOPBACK)};
  if (!kept.has_ip && strstr(kept.script, "myIpAddress") != NULL) {
    if (gethostname(name, sizeof name - 1) == 0 && look_up(name, AF_INET, text) == FOUND)
      inet_pton(AF_INET, text, &address);
    kept.my_ip = ntohl(address.s_addr);
    kept.has_ip = true;
  }
  return kept.has_ip ? kept.my_ip : LOOPBACK;
}

/* The settings of a run at this moment, in the zone of this machine. */
static struct pac_settings settings_now(void) {
  time_t now = time(NULL);
  struct tm here;
  localtime_r(&now, &here);
  return (struct pac_settings){
      .moment = now, .fuel = PAC_USUAL_FUEL, .my_ip = my_ip(), .zone_minutes = (int32_t)(here.tm_gmtoff / 60)};
}

int pacparser_init(void) {
  kept.is_ready = true;
  return 1;
}

int pacparser_parse_pac_string(const char *script) {
  char line[LINE_ROOM] = "";
  size_t whole;
  if (!kept.is_ready || script == NULL) {
    say("parse_pac_string", "", script == NULL ? "no script" : "pacparser_init was not called");
    return 0;
  }
  uint32_t status = pac_check((const uint8_t *)script, strlen(script), (uint8_t *)line, sizeof line - 1, &whole);
  if (status != PAC_DONE && status != PAC_SHORT) {
    say("parse_pac_string", "", reason(status, line));
    return 0;
  }
  char *copy = strdup(script);
  if (copy == NULL) {
    say("parse_pac_string", "", reason(PAC_MEMORY, line));
    return 0;
  }
  free(kept.script);
  kept.script = copy;
  return 1;
}

char *pacparser_find_proxy(const char *url, const char *host) {
  (void)host;
  free(kept.answer);
  kept.answer = NULL;
  if (kept.script == NULL || url == NULL) {
    say("find_proxy", "", url == NULL ? "no URL" : "no script was parsed");
    return NULL;
  }
  struct run run = {.url = url, .settings = settings_now()};
  uint32_t status = call_with_names(&run);
  if (status == PAC_DONE) return answer_of(run.output);
  say("find_proxy", status == PAC_NAME_WANTED ? "unanswered " : "", reason(status, run.output));
  free(run.output);
  return NULL;
}

int pacparser_setmyip(const char *ip) {
  struct in_addr address;
  if (ip == NULL || inet_pton(AF_INET, ip, &address) != 1) {
    say("setmyip", "no dotted quad: ", ip == NULL ? "nothing" : ip);
    return 0;
  }
  kept.my_ip = ntohl(address.s_addr);
  kept.has_ip = true;
  return 1;
}

void pacparser_cleanup(void) {
  free(kept.script);
  free(kept.answer);
  memset(&kept, 0, sizeof kept);
}
