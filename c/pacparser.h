/* Five calls of pacparser, the library for proxy auto-config scripts, over pac_find_proxy: what a program needs that
 * reads one script and asks it for proxies. They have pacparser's names and types, so such a program is compiled and
 * linked with these in place of its own.
 *
 * What is otherwise here:
 *
 * - A script is of the language of this project, and is read by pacparser_parse_pac_string but run by
 *   pacparser_find_proxy, each time from its beginning. What its outermost statements do wrong is told there.
 * - A URL is read by the URL Standard, and its host is what the script sees. The host of the caller is not looked at.
 * - Where a name's look-up fails, as it does without a network, there is no answer: it isn't taken for a name without
 *   address.
 * - IPv6 addresses are looked up only where the script speaks of dnsResolveEx or isResolvableEx, and of each family
 *   the first address alone is told.
 * - What the script returns is its answer only where it is a text. What it hands to alert() is dropped.
 *
 * As with pacparser the calls are those of one thread at a time, and what went wrong is told on standard error. */
#ifndef PACPARSER_H
#define PACPARSER_H

#ifdef __cplusplus
extern "C" {
#endif

/* Makes ready: 1. */
int pacparser_init(void);

/* Takes the script in place of any other: 1, or 0 where it is refused or nothing was made ready. */
int pacparser_parse_pac_string(const char *script);

/* What the script returns for a URL, or NULL where there is no answer. It stays until the next call. Of its text, units
 * behind 127 and zeros stand as \uXXXX; no entry of a proxy list has any. */
char *pacparser_find_proxy(const char *url, const char *host);

/* Sets what myIpAddress() answers; else it is the address of this machine's own name, or 127.0.0.1 where it has none:
 * 1, or 0 where it is no dotted quad. In pacparser up to 1.3 the call returns nothing. */
int pacparser_setmyip(const char *ip);

/* Gives all back. */
void pacparser_cleanup(void);

#ifdef __cplusplus
}
#endif

#endif
