/* What each call gives, in each room: for good pieces, and for null, empty, cut, long and faulty ones.
 *
 * What is expected is what the pages in docs/ say. */
#include <stdlib.h>
#include <string.h>

#include "counting.h"
#include "pac.h"

#define ROOM 2048
#define UNTOUCHED 0xa5

struct piece {
  const char *bytes;
  size_t length;
};

#define PIECE(text) {text, sizeof text - 1}
#define NOTHING {NULL, 0}

enum call { FIND_PROXY, CHECK, PROXIES };

/* A call and what it gives. CHECK and PROXIES are handed `script` alone. */
struct row {
  const char *what;
  enum call call;
  struct piece script, url, names;
  struct pac_settings settings;
  uint32_t status;
  struct piece written;
};

/* A Tuesday, 22:13:20 in UTC. */
#define USUAL {1700000000, PAC_USUAL_FUEL, 0x7f000001, 0}
#define REST NOTHING, NOTHING, USUAL
#define FUNCTION(body) PIECE("function FindProxyForURL(url, host) { " body " }")
#define DIRECT FUNCTION("return \"DIRECT\";")
#define ADDRESS FUNCTION("return \"PROXY \" + dnsResolve(host) + \":80\";")
#define BOTH FUNCTION("return dnsResolveEx(host) + dnsResolve(host) + isResolvableEx(host);")
#define TWO FUNCTION("return dnsResolve(\"b.example\") + dnsResolve(\"A.Example.\");")
#define CAUGHT FUNCTION("try { dnsResolve(host); } catch (e) { } finally { return \"DIRECT\"; }")
#define ALERTS FUNCTION("alert(\"a\\n\\\\\"); alert(isResolvable(host)); return \"DIRECT\";")
#define MINE FUNCTION("return \"PROXY \" + myIpAddress() + \":80\";")
#define HOUR FUNCTION("return timeRange(22) ? \"PROXY late:80\" : \"DIRECT\";")
#define DATE FUNCTION("return new Date().getHours() < 12 ? \"PROXY a:80\" : \"PROXY b:80\";")
#define LATIN PIECE("function FindProxyForURL(u, h) { return \"\xe9\" == \"\\u00e9\" ? \"DIRECT\" : \"PROXY a:80\"; }")
#define A PIECE("http://a.example/")
#define REPORT(lines) PIECE("url 1 http://a.example/\n" lines "runs 1\n")
#define DIRECT_REPORT REPORT("result DIRECT\ntry DIRECT\n")
#define BAD_URL PIECE("refused url BadUrl\n")

static const struct row rows[] = {
    {"no name", FIND_PROXY, DIRECT, A, NOTHING, USUAL, PAC_DONE, DIRECT_REPORT},
    {"a name that isn't told", FIND_PROXY, ADDRESS, A, NOTHING, USUAL, PAC_NAME_WANTED, PIECE("a.example")},
    {"another name is told", FIND_PROXY, ADDRESS, A, PIECE("b.example 10.0.0.2"), USUAL, PAC_NAME_WANTED,
     PIECE("a.example")},
    {"a name that is told", FIND_PROXY, ADDRESS, A, PIECE("a.example 10.0.0.1\n"), USUAL, PAC_DONE,
     REPORT("result PROXY 10.0.0.1:80\ntry PROXY 10.0.0.1:80\n")},
    {"it has no address", FIND_PROXY, ADDRESS, A, PIECE("a.example -\n"), USUAL, PAC_DONE,
     REPORT("result PROXY null:80\ntry PROXY null:80\n")},
    {"the first of two names", FIND_PROXY, TWO, A, PIECE("a.example 10.0.0.1\n"), USUAL, PAC_NAME_WANTED,
     PIECE("b.example")},
    {"the second one, in lower case", FIND_PROXY, TWO, A, PIECE("b.example 10.0.0.2\n"), USUAL, PAC_NAME_WANTED,
     PIECE("a.example")},
    {"both are told", FIND_PROXY, TWO, A, PIECE("# today\nB.example. 10.0.0.2\r\n\na.example\t10.0.0.1"), USUAL,
     PAC_DONE, REPORT("result 10.0.0.210.0.0.1\ntry DIRECT\n")},
    {"a name that isn't told, of both families", FIND_PROXY, BOTH, A, NOTHING, USUAL, PAC_NAME_WANTED,
     PIECE("a.example")},
    {"both families are told", FIND_PROXY, BOTH, A, PIECE("a.example 10.0.0.1\na.example 2001:DB8::0:1\n"), USUAL,
     PAC_DONE, REPORT("result 2001:db8::1;10.0.0.110.0.0.1true\ntry DIRECT\n")},
    {"IPv4 alone is told", FIND_PROXY, BOTH, A, PIECE("a.example 10.0.0.1"), USUAL, PAC_DONE,
     REPORT("result 10.0.0.110.0.0.1true\ntry DIRECT\n")},
    {"IPv6 alone is told", FIND_PROXY, BOTH, A, PIECE("a.example ::1.2.3.4"), USUAL, PAC_DONE,
     REPORT("result ::102:304nulltrue\ntry DIRECT\n")},
    {"that there is no address is told", FIND_PROXY, BOTH, A, PIECE("a.example -"), USUAL, PAC_DONE,
     REPORT("result nullfalse\ntry DIRECT\n")},
    {"IPv6, and no address of IPv4", FIND_PROXY, BOTH, A, PIECE("a.example -\na.example ::1"), USUAL, PAC_DONE,
     REPORT("result ::1nulltrue\ntry DIRECT\n")},
    {"IPv6 alone, where IPv4 is asked for", FIND_PROXY, ADDRESS, A, PIECE("a.example ::1"), USUAL, PAC_DONE,
     REPORT("result PROXY null:80\ntry PROXY null:80\n")},
    {"another name's IPv6 address", FIND_PROXY, BOTH, A, PIECE("b.example ::1"), USUAL, PAC_NAME_WANTED,
     PIECE("a.example")},
    {"the entry function for IPv6", FIND_PROXY,
     PIECE("function FindProxyForURL(u, h) { return 7; } function FindProxyForURLEx(u, h) { return \"DIRECT\"; }"), A,
     NOTHING, USUAL, PAC_DONE, DIRECT_REPORT},
    {"no catch sees that a name is wanted", FIND_PROXY, CAUGHT, A, NOTHING, USUAL, PAC_NAME_WANTED, PIECE("a.example")},
    {"no alert where a name is wanted", FIND_PROXY, ALERTS, A, NOTHING, USUAL, PAC_NAME_WANTED, PIECE("a.example")},
    {"alerts", FIND_PROXY, ALERTS, A, PIECE("a.example -"), USUAL, PAC_DONE,
     REPORT("alert a\\u000a\\\\\nalert false\nresult DIRECT\ntry DIRECT\n")},
    {"the own address", FIND_PROXY, MINE, A, NOTHING, {0, PAC_USUAL_FUEL, 0x0a010203, 0}, PAC_DONE,
     REPORT("result PROXY 10.1.2.3:80\ntry PROXY 10.1.2.3:80\n")},
    {"the hour in UTC", FIND_PROXY, HOUR, A, NOTHING, USUAL, PAC_DONE,
     REPORT("result PROXY late:80\ntry PROXY late:80\n")},
    {"an hour east", FIND_PROXY, HOUR, A, NOTHING, {1700000000, PAC_USUAL_FUEL, 0, 60}, PAC_DONE, DIRECT_REPORT},
    {"14 minutes west", FIND_PROXY, HOUR, A, NOTHING, {1700000000, PAC_USUAL_FUEL, 0, -14}, PAC_DONE, DIRECT_REPORT},
    {"13 minutes west", FIND_PROXY, HOUR, A, NOTHING, {1700000000, PAC_USUAL_FUEL, 0, -13}, PAC_DONE,
     REPORT("result PROXY late:80\ntry PROXY late:80\n")},
    {"fuel for the load alone", FIND_PROXY, DIRECT, A, NOTHING, {0, 2, 0, 0}, PAC_DONE,
     REPORT("fault F1 FuelSpent at 0:0\n")},
    {"a fault with its place", FIND_PROXY, DATE, A, NOTHING, USUAL, PAC_DONE,
     REPORT("fault F12 Unsupported at 1:50 Date\n")},
    {"what a script sees of a URL", FIND_PROXY, DIRECT, PIECE("https://u:p@A.example/b?c#d"), NOTHING, USUAL, PAC_DONE,
     PIECE("url 1 https://a.example/\nresult DIRECT\ntry DIRECT\nruns 1\n")},
    {"a zero within a URL ends nothing", FIND_PROXY, DIRECT, PIECE("http://a.example/\0b"), NOTHING, USUAL, PAC_DONE,
     PIECE("url 1 http://a.example/%00b\nresult DIRECT\ntry DIRECT\nruns 1\n")},
    {"a script that isn't UTF-8", FIND_PROXY, LATIN, A, NOTHING, USUAL, PAC_DONE, DIRECT_REPORT},
    {"no script", FIND_PROXY, NOTHING, A, NOTHING, USUAL, PAC_DONE, REPORT("fault F14 NoEntry at 0:0\n")},
    {"an empty script", FIND_PROXY, PIECE(""), A, PIECE(""), USUAL, PAC_DONE, REPORT("fault F14 NoEntry at 0:0\n")},
    {"a bad token", FIND_PROXY, PIECE("#"), A, NOTHING, USUAL, PAC_BAD_SCRIPT, PIECE("refused script 1:1 BadToken\n")},
    {"a script that is cut", FIND_PROXY, PIECE("f(a)\nf("), A, NOTHING, USUAL, PAC_BAD_SCRIPT,
     PIECE("refused script 2:3 Unexpected\n")},
    {"the script before names and URL", FIND_PROXY, PIECE("f(.5)"), PIECE("a:"), PIECE("a"), USUAL, PAC_BAD_SCRIPT,
     PIECE("refused script 1:3 FractionLiteral\n")},
    {"names without an address", FIND_PROXY, DIRECT, A, PIECE("b.example -\na.example\n"), USUAL, PAC_BAD_NAMES,
     PIECE("refused names 2 BadLine\n")},
    {"names that aren't UTF-8", FIND_PROXY, DIRECT, A, PIECE("\xff 10.0.0.1"), USUAL, PAC_BAD_NAMES,
     PIECE("refused names 1 BadLine\n")},
    {"a name twice", FIND_PROXY, DIRECT, A, PIECE("a.example -\n\nA.EXAMPLE. 10.0.0.1"), USUAL, PAC_BAD_NAMES,
     PIECE("refused names 3 Twice\n")},
    {"an IPv6 address twice", FIND_PROXY, DIRECT, A, PIECE("a.example ::1\na.example -\na.example 0::1"), USUAL,
     PAC_BAD_NAMES, PIECE("refused names 3 Twice\n")},
    {"an IPv6 address in brackets", FIND_PROXY, DIRECT, A, PIECE("a.example [::1]"), USUAL, PAC_BAD_NAMES,
     PIECE("refused names 1 BadLine\n")},
    {"the names before the URL", FIND_PROXY, DIRECT, PIECE("a:"), PIECE("a"), USUAL, PAC_BAD_NAMES,
     PIECE("refused names 1 BadLine\n")},
    {"no URL", FIND_PROXY, DIRECT, NOTHING, NOTHING, USUAL, PAC_BAD_URL, BAD_URL},
    {"an empty URL", FIND_PROXY, DIRECT, PIECE(""), NOTHING, USUAL, PAC_BAD_URL, BAD_URL},
    {"another scheme", FIND_PROXY, DIRECT, PIECE("gopher://example.com/"), NOTHING, USUAL, PAC_BAD_URL, BAD_URL},
    {"a URL that isn't UTF-8", FIND_PROXY, DIRECT, PIECE("http://a.example/\xff"), NOTHING, USUAL, PAC_BAD_URL,
     BAD_URL},
    {"the first moment", FIND_PROXY, DIRECT, A, NOTHING, {0, 100, 0, -1439}, PAC_DONE, DIRECT_REPORT},
    {"the last moment", FIND_PROXY, DIRECT, A, NOTHING, {253370764799, 1000000000, UINT32_MAX, 1439}, PAC_DONE,
     DIRECT_REPORT},
    {"before the first moment", FIND_PROXY, DIRECT, A, NOTHING, {-1, 100, 0, 0}, PAC_BAD_SETTINGS, NOTHING},
    {"behind the last moment", FIND_PROXY, DIRECT, A, NOTHING, {253370764800, 100, 0, 0}, PAC_BAD_SETTINGS, NOTHING},
    {"no fuel", FIND_PROXY, DIRECT, A, NOTHING, {0, 0, 0, 0}, PAC_BAD_SETTINGS, NOTHING},
    {"too much fuel", FIND_PROXY, DIRECT, A, NOTHING, {0, 1000000001, 0, 0}, PAC_BAD_SETTINGS, NOTHING},
    {"a day west", FIND_PROXY, DIRECT, A, NOTHING, {0, 100, 0, -1440}, PAC_BAD_SETTINGS, NOTHING},
    {"a day east", FIND_PROXY, DIRECT, A, NOTHING, {0, 100, 0, 1440}, PAC_BAD_SETTINGS, NOTHING},
    {"far east", FIND_PROXY, DIRECT, A, NOTHING, {0, 100, 0, INT32_MIN}, PAC_BAD_SETTINGS, NOTHING},
    {"the settings before the script", FIND_PROXY, PIECE("#"), A, NOTHING, {0, 0, 0, 0}, PAC_BAD_SETTINGS, NOTHING},
    {"check", CHECK, DIRECT, REST, PAC_DONE,
     PIECE("function FindProxyForURL ( url , host ) { return \"DIRECT\" ; }\n")},
    {"check of nothing", CHECK, NOTHING, REST, PAC_DONE, NOTHING},
    {"check of what is refused", CHECK, PIECE("\n with"), REST, PAC_BAD_SCRIPT,
     PIECE("refused script 2:2 Unsupported\n")},
    {"proxies", PROXIES, PIECE("PROXY a:8080; DIRECT"), REST, PAC_DONE, PIECE("PROXY a:8080\nDIRECT\n")},
    {"their ports and cases", PROXIES, PIECE("HTTPS A;socks4 b ; PROXY [::1]:8080"), REST, PAC_DONE,
     PIECE("HTTPS a:443\nSOCKS b:1080\nPROXY [::1]:8080\n")},
    {"pieces that are no entries", PROXIES, PIECE("BOGUS x; DIRECT a; PROXY a b; SOCKS b"), REST, PAC_DONE,
     PIECE("SOCKS b:1080\n")},
    {"an entry that isn't UTF-8", PROXIES, PIECE("PROXY a\xff; PROXY b"), REST, PAC_DONE, PIECE("PROXY b:80\n")},
    {"an empty list", PROXIES, NOTHING, REST, PAC_DONE, PIECE("DIRECT\n")},
};

static uint32_t call(const struct row *row, uint8_t *output, size_t room, size_t *whole) {
  const uint8_t *script = (const uint8_t *)row->script.bytes;
  switch (row->call) {
    case FIND_PROXY:
      return pac_find_proxy(script, row->script.length, (const uint8_t *)row->url.bytes, row->url.length,
                            (const uint8_t *)row->names.bytes, row->names.length, &row->settings, output, room, whole);
    case CHECK:
      return pac_check(script, row->script.length, output, room, whole);
    default:
      return pac_proxies(script, row->script.length, output, room, whole);
  }
}

/* Whether no byte of the output from this one on was touched. */
static int is_untouched(const uint8_t *output, size_t from) {
  while (from < ROOM && output[from] == UNTOUCHED) from++;
  return from == ROOM;
}

/* Whether a call in a room gives what the row says: its text where it fits, and nothing at all where it does not. */
static int holds_in(const struct row *row, size_t room) {
  uint8_t output[ROOM];
  size_t whole = SIZE_MAX, wanted = row->written.length, written = wanted <= room ? wanted : 0;
  int is_answer = row->status == PAC_DONE || row->status == PAC_NAME_WANTED;
  memset(output, UNTOUCHED, ROOM);
  uint32_t status = call(row, room == 0 ? NULL : output, room, &whole);
  return status == (is_answer && room < wanted ? PAC_SHORT : row->status) && whole == wanted &&
         (written == 0 || memcmp(output, row->written.bytes, written) == 0) && is_untouched(output, written);
}

static void expect_row(const struct row *row) {
  size_t wanted = row->written.length;
  expect(holds_in(row, ROOM), row->what);
  expect(holds_in(row, wanted), row->what);
  expect(holds_in(row, 0), row->what);
  if (wanted > 0) expect(holds_in(row, wanted - 1), row->what);
}

/* So many bytes, the first ones as told and blanks behind them. */
static struct piece long_piece(const char *front, size_t length) {
  char *bytes = malloc(length);
  if (bytes == NULL) abort();
  memset(bytes, ' ', length);
  memcpy(bytes, front, strlen(front));
  return (struct piece){bytes, length};
}

/* Pieces of the most bytes, and of one more. */
static void expect_long_pieces(void) {
  const char *direct = "function FindProxyForURL(url, host) { return \"DIRECT\"; }";
  struct piece script = long_piece(direct, PAC_MOST_BYTES + 1), url = long_piece("http://a.example/", 8193);
  struct piece names = long_piece("#", PAC_MOST_BYTES + 1);
  struct row most = {"the most bytes", FIND_PROXY, script, url, names, USUAL, PAC_DONE, DIRECT_REPORT};
  most.script.length = most.names.length = PAC_MOST_BYTES;
  most.url.length = 8192;
  struct row long_script = most, long_url = most, long_names = most, check = most;
  long_script.script.length = check.script.length = script.length;
  long_names.names.length = names.length;
  long_url.url.length = url.length;
  long_script.status = long_names.status = check.status = PAC_TOO_LONG;
  long_script.written = long_names.written = check.written = (struct piece)NOTHING;
  long_url.status = PAC_BAD_URL;
  long_url.written = (struct piece)BAD_URL;
  check.call = CHECK;
  expect_row(&most);
  expect_row(&long_script);
  expect_row(&long_names);
  expect_row(&long_url);
  expect_row(&check);
  free((void *)script.bytes);
  free((void *)url.bytes);
  free((void *)names.bytes);
}

int main(void) {
  for (size_t i = 0; i < sizeof rows / sizeof rows[0]; i++) expect_row(&rows[i]);
  expect_long_pieces();
  return counted("calls");
}
