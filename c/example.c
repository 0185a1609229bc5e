/* Which proxies to try for a URL, as the script in a file says: example SCRIPT URL
 * It writes a line for each, in their order. Names are looked up as other programs do it, by getaddrinfo. */
#define _GNU_SOURCE
#include <arpa/inet.h>
#include <netdb.h>
#include <stdio.h>
#include <stdlib.h>
#include <string.h>
#include <time.h>

#include "pac.h"

static uint8_t script[PAC_MOST_BYTES + 1];
static char names[PAC_MOST_NAMES * 2 * PAC_NAME_LINE + 1];

/* Without an answer nothing is to be fetched, and not directly either: that is no less a choice than a proxy. */
static void stop(const char *what, const char *text) {
  fprintf(stderr, "example: %s %s\n", what, text);
  exit(1);
}

static void add_line(const char *name, const char *address) {
  size_t length = strlen(names);
  snprintf(names + length, sizeof names - length, "%s %s\n", name, address);
}

/* The octets of an address of either family. */
static const void *octets_of(const struct sockaddr *address) {
  return address->sa_family == AF_INET ? (const void *)&((const struct sockaddr_in *)address)->sin_addr
                                       : (const void *)&((const struct sockaddr_in6 *)address)->sin6_addr;
}

/* Adds the line of a name's first address of a family; 0 where it has none. */
static int tell_address(const char *name, int family) {
  struct addrinfo wanted = {.ai_family = family}, *found;
  char address[INET6_ADDRSTRLEN];
  int error = getaddrinfo(name, NULL, &wanted, &found);
  if (error == EAI_NONAME || error == EAI_NODATA || error == EAI_ADDRFAMILY) return 0;
  if (error != 0) stop("unanswered", name);
  inet_ntop(family, octets_of(found->ai_addr), address, sizeof address);
  freeaddrinfo(found);
  add_line(name, address);
  return 1;
}

/* Adds the lines of a name: its first address of each family, or `-` where it has none. */
static void tell(const char *name) {
  int told = tell_address(name, AF_INET6) + tell_address(name, AF_INET);
  if (told == 0) add_line(name, "-");
}

int main(int count, char **words) {
  if (count != 3) stop("usage:", "example SCRIPT URL");
  FILE *file = fopen(words[1], "rb");
  size_t length = file == NULL ? 0 : fread(script, 1, sizeof script, file), room = 0, whole = 4096;
  if (file == NULL || ferror(file)) stop("can't read", words[1]);
  fclose(file);
  struct pac_settings settings = {.moment = time(NULL), .fuel = PAC_USUAL_FUEL, .my_ip = 0x7f000001};
  char *output = NULL;
  uint32_t status = PAC_SHORT;
  while (status == PAC_SHORT || status == PAC_NAME_WANTED) {
    if (status == PAC_SHORT) output = realloc(output, (room = whole) + 1);
    if (output == NULL) stop("no answer:", "no memory");
    status = pac_find_proxy(script, length, (uint8_t *)words[2], strlen(words[2]), (uint8_t *)names, strlen(names),
                            &settings, (uint8_t *)output, room, &whole);
    if (status != PAC_SHORT) output[whole] = 0;
    if (status == PAC_NAME_WANTED) tell(output);
  }
  for (char *line = strtok(output, "\n"); line != NULL; line = strtok(NULL, "\n")) {
    if (strncmp(line, "try ", 4) == 0) puts(line + 4);
    if (strncmp(line, "fault ", 6) == 0 || status != PAC_DONE) stop("no answer:", line);
  }
  if (status != PAC_DONE) stop("no answer:", status == PAC_TOO_LONG ? "the script is too long" : "no memory");
  free(output);
}
