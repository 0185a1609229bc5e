/* The five calls of pacparser, beside a resolver of the tests. */
#define _GNU_SOURCE
#include <stdlib.h>
#include <string.h>
#include <time.h>

#include "counting.h"
#include "pacparser.h"

/* What is said on standard error, from the last time on that it was asked for. */
static char *said;
static size_t said_length;

static void listen_to_errors(void) {
  stderr = open_memstream(&said, &said_length);
  if (stderr == NULL) abort();
}

static void expect_said(const char *text) {
  fclose(stderr);
  expect(strcmp(said, text) == 0, text);
  free(said);
  listen_to_errors();
}

static void expect_answer(const char *url, const char *answer) {
  char *found = pacparser_find_proxy(url, "other.example");
  expect(found != NULL && strcmp(found, answer) == 0, answer);
}

/* Takes a script whose function has this body. */
static void parse(const char *body) {
  char script[1024];
  snprintf(script, sizeof script, "function FindProxyForURL(url, host) { %s }", body);
  expect(pacparser_parse_pac_string(script) == 1, body);
}

static void expect_fault(const char *body, const char *line) {
  parse(body);
  expect(pacparser_find_proxy("http://a.example/", "a.example") == NULL, line);
  expect_said(line);
}

static void expect_calls_in_disorder(void) {
  expect(pacparser_parse_pac_string("") == 0, "no script is parsed before pacparser_init");
  expect_said("pacparser_parse_pac_string: pacparser_init was not called\n");
  expect(pacparser_init() == 1 && pacparser_init() == 1, "it is made ready, also twice");
  expect(pacparser_find_proxy("http://a.example/", "a.example") == NULL, "without a script there is no answer");
  expect_said("pacparser_find_proxy: no script was parsed\n");
  expect(pacparser_parse_pac_string(NULL) == 0, "no script is none");
  expect_said("pacparser_parse_pac_string: no script\n");
  expect(pacparser_parse_pac_string("#") == 0, "a script that is refused is none");
  expect_said("pacparser_parse_pac_string: refused script 1:1 BadToken\n");
}

static void expect_answers(void) {
  parse("return url + host;");
  expect_answer("http://u:p@A.example/x#y", "http://a.example/xa.example");
  expect(pacparser_parse_pac_string("with") == 0, "a script that is refused");
  expect_said("pacparser_parse_pac_string: refused script 1:1 Unsupported\n");
  expect_answer("http://b.example/", "http://b.example/b.example");
  parse("return \"PROXY a:80;\\n\\\\ \\u00e9\\u0000\";");
  expect_answer("http://a.example/", "PROXY a:80;\n\\ \\u00e9\\u0000");
  parse("for (var t = \"PROXY a:80; \"; t.length < 9000; ) t += t; return t;");
  char *found = pacparser_find_proxy("http://a.example/", "a.example");
  expect(found != NULL && strlen(found) == 12288, "an answer that is longer than the first room");
  expect(pacparser_find_proxy("a:", "a.example") == NULL, "a URL that is refused");
  expect_said("pacparser_find_proxy: refused url BadUrl\n");
  expect(pacparser_find_proxy(NULL, NULL) == NULL, "no URL");
  expect_said("pacparser_find_proxy: no URL\n");
}

static void expect_names(void) {
  parse("return \"\" + dnsResolve(host) + dnsResolve(\"gone.example\") + dnsResolve(\"empty.example\");");
  expect_answer("http://build.example.net/", "10.1.2.3nullnull");
  expect(pacparser_find_proxy("http://silent.example/", NULL) == NULL, "a name whose look-up fails");
  expect_said("pacparser_find_proxy: unanswered silent.example\n");
  /* as many names as a run may ask for, each of 253 bytes, with the longest address */
  parse("for (var l = \"\"; l.length < 63; ) l += \"l\"; var end = \".\" + l + \".\" + l + \".\" + l.substring(15);"
        "for (var n = 10; n < 42; n++) isResolvable(n + l.substring(2) + end + \".long.example\");"
        "return dnsResolve(\"41\" + l.substring(2) + end + \".long.example\");");
  expect_answer("http://a.example/", "255.255.255.255");
}

static void expect_both_families(void) {
  parse("return dnsResolveEx(host) + isResolvableEx(\"gone.example\");");
  expect_answer("http://both.example.net/", "2001:db8::4;10.1.2.4false");
  expect_answer("http://build.example.net/", "10.1.2.3false");
  expect_answer("http://v6.example.net/", "2001:db8::6false");
  expect_answer("http://[2001:DB8::5]/", "2001:db8::5false");
  expect(pacparser_find_proxy("http://silent.example/", NULL) == NULL, "a name whose look-up fails");
  expect_said("pacparser_find_proxy: unanswered silent.example\n");
  parse("return \"\" + dnsResolve(host) + isInNetEx(\"2001:db8::5\", \"2001:db8::/32\");");
  expect_answer("http://v6.example.net/", "nulltrue");
  /* as many names as a run may ask for both addresses of, each of 253 bytes, with the longest ones */
  parse("for (var l = \"\"; l.length < 63; ) l += \"l\"; var end = \".\" + l + \".\" + l + \".\" + l.substring(15);"
        "for (var n = 10; n < 26; n++) isResolvableEx(n + l.substring(2) + end + \".long.example\");"
        "return dnsResolveEx(\"25\" + l.substring(2) + end + \".long.example\");");
  expect_answer("http://a.example/", "ffff:ffff:ffff:ffff:ffff:ffff:ffff:ffff;255.255.255.255");
}

static void expect_my_ip(void) {
  parse("return myIpAddress();");
  expect_answer("http://a.example/", "192.0.2.7");
  expect(pacparser_setmyip("10.9.8.7") == 1, "a quad is taken");
  expect_answer("http://a.example/", "10.9.8.7");
  expect(pacparser_setmyip("10.9.8") == 0 && pacparser_setmyip(NULL) == 0, "nothing else is");
  expect_said("pacparser_setmyip: no dotted quad: 10.9.8\npacparser_setmyip: no dotted quad: nothing\n");
  expect_answer("http://a.example/", "10.9.8.7");
}

static void expect_zone(void) {
  setenv("TZ", "HERE-05:00", 1);
  tzset();
  parse("for (var here = 0, i = 0; i < 24; i++) { if (timeRange(i)) here += i; if (timeRange(i, \"GMT\")) here -= i; }"
        "return \"\" + (here + 24) % 24;");
  expect_answer("http://a.example/", "5");
}

static void expect_faults(void) {
  expect_fault("return 7;", "pacparser_find_proxy: fault F15 NotAString at 0:0\n");
  expect_fault("throw \"x\";", "pacparser_find_proxy: fault F13 Uncaught at 1:39 x\n");
  expect_fault("for (var i = 0; ; i++) isResolvable(\"a\" + i);",
               "pacparser_find_proxy: fault F3 TooManyNames at 1:74\n");
  expect_fault("for (var i = 0; ; i++) isResolvableEx(\"a\" + i);",
               "pacparser_find_proxy: fault F3 TooManyNames at 1:76\n");
}

int main(void) {
  listen_to_errors();
  expect_calls_in_disorder();
  expect_answers();
  expect_names();
  expect_both_families();
  expect_my_ip();
  expect_zone();
  expect_faults();
  pacparser_cleanup();
  expect(pacparser_find_proxy("http://a.example/", "a.example") == NULL, "no script is left");
  expect(pacparser_init() == 1, "it is made ready again");
  parse("return myIpAddress();");
  expect_answer("http://a.example/", "192.0.2.7");
  pacparser_cleanup();
  fclose(stderr);
  free(said);
  return counted("drop_in");
}
