/* Which proxies to try for a URL, as a proxy auto-config (PAC) script says.
 *
 * Each call works on its arguments alone: it keeps nothing, opens no file and no socket, and reads no clock. A name
 * that the script asks for is looked up by the caller, who tells its addresses and calls again:
 *
 *     status = pac_find_proxy(.., names, ..);
 *     while (status == PAC_NAME_WANTED) {
 *       add the lines for that name to the names;
 *       status = pac_find_proxy(.., names, ..);
 *     }
 *
 * So the script is run from its beginning once more for each name, and its answer is that of one run to which all names
 * were known. example.c does this by getaddrinfo.
 *
 * Pieces     A piece is a pointer and a number of bytes. None needs a zero behind it, and one of no bytes may be NULL.
 *            `settings` and `whole` are never NULL. `output` and `*whole` overlap no other piece.
 * Output     `output` has `room` bytes. `*whole` is how many bytes a call has to write, also where the room is short of
 *            them and nothing is written. They stand at the front, and no byte behind them is touched.
 * Order      Where more than one thing is wrong, the first of this list is told: settings, the length of the script,
 *            the script, the length of the names, the names, the URL, the run, the room.
 * Threads    Calls of any number of threads may run at once.
 * Stack      A call needs 1 MB of its thread's stack. With less the process may end by a signal.
 * Memory     It is taken by malloc, and given back before the call returns. For a script in use it is less than 1 MB;
 *            the largest that was seen, for a script that is made to be large in all that it may be, is 450 MB.
 * Time       `fuel` bounds the steps of a run. A step may walk a text of 262144 units.
 */
#ifndef PAC_H
#define PAC_H

#include <stddef.h>
#include <stdint.h>

#ifdef __cplusplus
extern "C" {
#endif

enum pac_status {
  PAC_DONE = 0,         /* the answer is written */
  PAC_NAME_WANTED = 1,  /* of pac_find_proxy alone: the first name is written that the run needs and `names` lacks */
  PAC_SHORT = 2,        /* nothing is written, as the room is short: in place of PAC_DONE and PAC_NAME_WANTED */
  PAC_BAD_SCRIPT = 3,   /* `refused script LINE:COLUMN NAME` is written where there is room for it */
  PAC_BAD_URL = 4,      /* `refused url BadUrl` is, likewise */
  PAC_BAD_NAMES = 5,    /* `refused names LINE NAME` is, likewise */
  PAC_BAD_SETTINGS = 6, /* a moment, a zone or fuel is out of its range */
  PAC_TOO_LONG = 7,     /* the script or the names have more than PAC_MOST_BYTES */
  PAC_MEMORY = 8        /* malloc refused memory */
};

#define PAC_MOST_BYTES 1048576  /* of a script, and of names */
#define PAC_MOST_NAMES 32       /* distinct names that a run asks for; one more is a fault of the script */
#define PAC_NAME_LINE 300       /* bytes of a line at most: 253 of a name, a space, 45 of an address, a line feed */
#define PAC_USUAL_FUEL 10000000 /* what the program `pac` gives a run */

/* How a run is done. */
struct pac_settings {
  int64_t moment;       /* what clocks show in the script: seconds since 1970 in UTC, 0 to 253370764799 */
  uint64_t fuel;        /* units of work, 1 to 1000000000 */
  uint32_t my_ip;       /* what myIpAddress() answers, its first octet highest: 0x7f000001 is 127.0.0.1 */
  int32_t zone_minutes; /* how far clocks are ahead of UTC, -1439 to 1439 */
};

/* Runs a script for a URL. `names` is the text of a names file: a line for each name, with its address, which is a
 * dotted quad or an IPv6 text, or with `-` where it has none. A name may have two lines, one of each family. One line
 * tells a name whole: of the other family it has no address then. So a name is wanted once, whichever of its addresses
 * the script asks for first, and a caller that tells dotted quads alone tells that no name has an IPv6 address. The
 * answer is the report that `pac map` writes: `url 1 URL`; `alert TEXT` for each alert; `result TEXT`, and `try ENTRY`
 * for each proxy in the order in which to try them, or else `fault NUMBER NAME at LINE:COLUMN`; `runs 1`. Each is a
 * line. */
uint32_t pac_find_proxy(const uint8_t *script, size_t script_length, const uint8_t *url, size_t url_length,
                        const uint8_t *names, size_t names_length, const struct pac_settings *settings,
                        uint8_t *output, size_t room, size_t *whole);

/* Reads a script. The answer is what `pac check` writes of it: the script as it was understood. */
uint32_t pac_check(const uint8_t *script, size_t script_length, uint8_t *output, size_t room, size_t *whole);

/* Reads a proxy list, such as `PROXY a.example; DIRECT`. The answer has a line for each entry, in the list's order. */
uint32_t pac_proxies(const uint8_t *list, size_t list_length, uint8_t *output, size_t room, size_t *whole);

#ifdef __cplusplus
}
#endif

#endif
