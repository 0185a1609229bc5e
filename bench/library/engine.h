/* What is timed: an engine that takes a script and finds proxies for URLs by it. */
#ifndef ENGINE_H
#define ENGINE_H

/* Takes the script, with what the engine has to be told beside it. Ends the program where it can't. */
void engine_take(const char *script, const char *helpers);

/* What the script returns for a URL; it stays until the next call. NULL where it returns nothing. */
const char *engine_find(const char *url, const char *host);

/* Gives all back. */
void engine_drop(void);

#endif
