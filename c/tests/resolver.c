/* A resolver in place of that of the C library, which knows a few names. */
#define _GNU_SOURCE
#include <arpa/inet.h>
#include <netdb.h>
#include <stdlib.h>
#include <string.h>
#include <unistd.h>

static const struct {
  const char *ending, *address, *address6;
  int error;
} known[] = {
    {"build.example.net", "10.1.2.3", NULL, 0},
    {"both.example.net", "10.1.2.4", "2001:db8::4", 0},
    {"v6.example.net", NULL, "2001:db8::6", 0},
    {"machine.example", "192.0.2.7", "2001:db8::7", 0},
    {".long.example", "255.255.255.255", "ffff:ffff:ffff:ffff:ffff:ffff:ffff:ffff", 0},
    {"gone.example", NULL, NULL, EAI_NONAME},
    {"empty.example", NULL, NULL, EAI_NODATA},
    {"silent.example", NULL, NULL, EAI_AGAIN},
};

static int ends_with(const char *text, const char *ending) {
  size_t length = strlen(text), part = strlen(ending);
  return length >= part && strcmp(text + length - part, ending) == 0;
}

/* An address as getaddrinfo gives it, in one piece of memory. */
static int give(int family, const char *address, struct addrinfo **found) {
  if (address == NULL) return EAI_NODATA;
  struct addrinfo *info = calloc(1, sizeof *info + sizeof(struct sockaddr_in6));
  if (info == NULL) return EAI_MEMORY;
  info->ai_family = family;
  info->ai_addr = (struct sockaddr *)(info + 1);
  info->ai_addr->sa_family = family;
  void *octets = family == AF_INET ? (void *)&((struct sockaddr_in *)info->ai_addr)->sin_addr
                                   : (void *)&((struct sockaddr_in6 *)info->ai_addr)->sin6_addr;
  inet_pton(family, address, octets);
  *found = info;
  return 0;
}

int getaddrinfo(const char *name, const char *service, const struct addrinfo *wanted, struct addrinfo **found) {
  int family = wanted->ai_family;
  if (service != NULL || (family != AF_INET && family != AF_INET6)) return EAI_BADFLAGS;
  for (size_t i = 0; i < sizeof known / sizeof known[0]; i++)
    if (ends_with(name, known[i].ending))
      return known[i].error != 0 ? known[i].error
                                 : give(family, family == AF_INET ? known[i].address : known[i].address6, found);
  return EAI_NONAME;
}

void freeaddrinfo(struct addrinfo *found) { free(found); }

int gethostname(char *name, size_t room) {
  strncpy(name, "machine.example", room);
  return 0;
}
