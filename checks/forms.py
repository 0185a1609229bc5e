"""What the program may write at each exit status, as docs/COMMAND-LINE.md and docs/PROXIES.md say."""
import collections
import re

from examples import USAGE

FAULTS = """FuelSpent TooDeep TooManyNames StringTooLong TextSpent ArrayTooLong HeapFull NumberRange Fraction NotANumber
DivisionByZero Unsupported Uncaught NoEntry NotAString""".split()
# units from 32 to 126 as they are, but a backslash twice; each other one by its number
TEXT = rb"(?:[ -\[\]-~]|\\\\|\\u(?!00[2-6].|007[0-9a-e])[0-9a-f]{4})*"
HOST = rb"(?:[!-9<-@\\^-~]{1,255}|\[[!-:<-@\\^-~]{1,255}\])"
ENTRY = rb"(?:DIRECT|(?:PROXY|HTTPS|SOCKS5?) " + HOST + rb":[1-9][0-9]{0,4})"
LABEL = rb"[a-z0-9_-]{1,63}"
NAME = LABEL + rb"(?:\." + LABEL + rb")*"
QUAD = rb"(?:[0-9]{1,3}\.){3}[0-9]{1,3}"
END = (
    rb"(?:result (?P<result>" + TEXT + rb")\n(?P<tries>(?:try " + ENTRY + rb"\n)+)"
    rb"|fault (?P<fault>F[0-9]+ [A-Za-z]+) at (?P<place>[0-9]+:[0-9]+)(?: (?P<detail>" + TEXT + rb"))?\n"
    rb"|unanswered (?P<unanswered>" + NAME + rb"(?: AAAA)?)\n)"
)
BLOCK = re.compile(
    rb"url (?P<number>[0-9]+) (?P<url>" + TEXT + rb")\n(?P<alerts>(?:alert " + TEXT + rb"\n)*)" + END
    + rb"runs (?P<runs>[0-9]+)\n"
)
SUMMARY = "seed # sites #\nurls # runs # names #\ndirect # proxy # socks #\n".replace("#", "[0-9]+").encode()
SCRIPT = rb"BadToken|FractionLiteral|Unexpected|Unsupported|TooDeep"
SCRIPT_REFUSED = rb"refused script (?:TooLong|[0-9]+:[0-9]+ (?:" + SCRIPT + rb"))\n"
NAMES_REFUSED = rb"refused names (?:TooLong|[0-9]+ (?:BadLine|Twice))\n"
BATCH_REFUSED = rb"refused batch (?:TooLong|[0-9]+ (?:BadLine|BadUrl|BackwardTime|TooMany))\n"
URL_REFUSED = rb"refused url BadUrl\n"
# by command and status what is written, but for reports
LINES = {
    "check": {0: rb"(?:[!-~](?:[ -~]*[!-~])?\n)*", 3: rb"fault read script\n", 4: SCRIPT_REFUSED},
    "map": {
        3: rb"fault read (?:script|names|batch)\n",
        4: rb"|".join([SCRIPT_REFUSED, NAMES_REFUSED, BATCH_REFUSED, URL_REFUSED]),
    },
    "resolve": {
        3: rb"fault read (?:script|batch)\n",
        4: rb"|".join([SCRIPT_REFUSED, BATCH_REFUSED, URL_REFUSED]),
        6: rb"fault link\n",
    },
    "ask": {0: rb"address " + QUAD + rb"\n|no address\n", 5: rb"unanswered " + NAME + rb"\n", 6: rb"fault link\n"},
    "generate": {0: SUMMARY},
}
ALWAYS = {2: re.escape(USAGE), 8: rb""}
DEFAULT_PORTS = {"HTTPS": 443, "SOCKS": 1080, "SOCKS5": 1080}


def blocks(report):
    """The blocks of a report, or None where it is none."""
    found, at = [], 0
    while at < len(report):
        block = BLOCK.match(report, at)
        if block is None:
            return None
        found.append(block)
        at = block.end()
    return found


def units(text):
    """The units that a text of a report stands for."""
    return re.sub(r"\\(?:\\|u(....))", lambda it: chr(int(it[1], 16)) if it[1] else "\\", text.decode("ascii"))


def entry_of(piece):
    """How the piece of a proxy list is written, or None where it is skipped."""
    words = [word for word in re.split("[ \t]+", piece) if word]
    if len(words) == 1 and re.fullmatch("direct", words[0], re.ASCII | re.IGNORECASE):
        return "DIRECT"
    if len(words) != 2 or not re.fullmatch("proxy|https?|socks[45]?", words[0], re.ASCII | re.IGNORECASE):
        return None
    kind = {"HTTP": "PROXY", "SOCKS4": "SOCKS"}.get(words[0].upper(), words[0].upper())
    place = re.fullmatch(r"([!-9<-Z\\^-~]{1,255}|\[[!-:<-Z\\^-~]{1,255}\])(?::([0-9]{1,5}))?", words[1])
    if place is None or not 1 <= int(place[2] or 1) <= 65_535:
        return None
    return f"{kind} {place[1].lower()}:{int(place[2] or DEFAULT_PORTS.get(kind, 80))}"


def proxies_of(result):
    """The proxies of a result, each as it is written, in the order of the list."""
    return [entry for entry in map(entry_of, units(result).split(";")) if entry] or ["DIRECT"]


def fault_in_end(block, is_ordered):
    """What is wrong with the end of a block."""
    fault, alerts = block["fault"], block["alerts"].splitlines()
    if len(alerts) > 256 or any(len(units(alert.removeprefix(b"alert "))) > 1_024 for alert in alerts):
        return "too many or too long alerts"
    if fault is not None:
        number, name = fault.decode().split()
        if number != f"F{FAULTS.index(name) + 1 if name in FAULTS else 0}":
            return "a fault that isn't in the table"
        if (block["detail"] is not None) != (name in ("Unsupported", "Uncaught")):
            return "a detail where none stands, or none where one does"
        if name in ("NoEntry", "NotAString") and block["place"] != b"0:0":
            return "a place of a fault that has none"
    if block["unanswered"] is not None and alerts:
        return "alerts of a URL that is unanswered"
    if block["result"] is not None:
        tried, listed = block["tries"].decode().removeprefix("try ").split("\ntry "), proxies_of(block["result"])
        tried[-1] = tried[-1].removesuffix("\n")
        if tried != listed if is_ordered else collections.Counter(tried) != collections.Counter(listed):
            return f"not the proxies of the result: {listed}"
    return None


def fault_in_report(command, status, report, is_ordered):
    """What is wrong with a report, whose proxies stand in the order of the results where the batch tells of none."""
    found = blocks(report)
    if found is None:
        return "no report"
    if [int(block["number"]) for block in found] != list(range(1, len(found) + 1)):
        return "the URLs aren't counted from 1"
    has_unanswered = any(block["unanswered"] is not None for block in found)
    has_fault = any(block["fault"] is not None for block in found)
    if status != (5 if has_unanswered else 1 if has_fault else 0):
        return "another status than the report's"
    most = 33 if command == "resolve" else 1
    if any(not 1 <= int(block["runs"]) <= most for block in found) or command == "map" and has_unanswered:
        return "runs that can't be, or a URL that can't be unanswered"
    return next(filter(None, (fault_in_end(block, is_ordered) for block in found)), None)


def fault_in(command, status, output, is_ordered=False):
    """What is wrong with what a command wrote at this status, or None."""
    if command in ("map", "resolve") and status in (0, 1, 5):
        return fault_in_report(command, status, output, is_ordered)
    forms = LINES.get(command, {}) | ALWAYS
    if status not in forms:
        return "a status that isn't in the table of the command"
    return None if re.fullmatch(forms[status], output) else "not what is written at this status"
