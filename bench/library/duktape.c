/* duktape, with the functions of the proxy format as users of such engines write them. */
#include <duktape.h>
#include <stdlib.h>

#include "engine.h"

static duk_context *context;

void engine_take(const char *script, const char *helpers) {
  context = duk_create_heap_default();
  if (context == NULL || duk_peval_string_noresult(context, helpers) || duk_peval_string_noresult(context, script))
    exit(3);
}

const char *engine_find(const char *url, const char *host) {
  duk_set_top(context, 0);
  duk_get_global_string(context, "FindProxyForURL");
  duk_push_string(context, url);
  duk_push_string(context, host);
  return duk_pcall(context, 2) == DUK_EXEC_SUCCESS ? duk_get_string(context, -1) : NULL;
}

void engine_drop(void) { duk_destroy_heap(context); }
