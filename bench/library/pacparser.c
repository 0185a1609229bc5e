/* pacparser's own library, or the drop-in for it. */
#include <pacparser.h>
#include <stdlib.h>

#include "engine.h"

void engine_take(const char *script, const char *helpers) {
  (void)helpers;
  if (!pacparser_init() || !pacparser_parse_pac_string(script)) exit(3);
}

const char *engine_find(const char *url, const char *host) { return pacparser_find_proxy(url, host); }

void engine_drop(void) { pacparser_cleanup(); }
