"""Scripts, batches, names files and words that are nearly right: made by a grammar, or others of them changed a little.

All is drawn from the generator that is handed in, so that one seed gives one case.
"""
import collections
import glob
import re

from stack import NESTED, TWICE, nested

# the command, the options that ask its server, the other words, files by name, the server (kind and seed) or None
Case = collections.namedtuple("Case", "command options words files server")
PORT, NOBODY = "PORT", "--server=127.0.0.1:1"
# how many units of fuel all runs of a call may take together, and how often `resolve` may run a script for a URL
FUEL = 3_000_000
AGAIN = 6

# the forms of each kind, and what is taken where no more of them may stand within one another
FORMS = {"nothing": [""], "tab": ["\t"], "far": ["a" * 70], "long": ["x" * 9_000]}
SHALLOW = {"value": "name", "statement": "assignment", "target": "name", "count": "number", "string": "text",
           "list": "name", "object": "name", "truth": "name"}
PARTS = re.compile(r"\w+|\s+|'[^'\n]*'|\"[^\"\n]*\"|[^\w\s]")
SIGNS = """( ) [ ] { } , ; => /* */ // <!-- ' " \\ \\u12 0x 08 1.5 1e3 /a/ ` = ++ in function return break continue case
default with class get set else catch finally \ufeff \x7f \u00e9 \U0001f600""".split()
SIGNS += [" ", "\t", "\r\n", "\r", "\0", "\u2028"]
ODD_WORDS = """- -- -h --help --fuel --names --batch= --fuel=0 --fuel=1000000001 --my-ip=1.2.3 --zone=x --now=-1
--wait=0 --tries=9 --batch=absent . --names=/dev/null absent --fuel=000000000000000000020 \udcff --no\u00e9 --second
--second=1.2.3.4:0""".split()
ODD_WORDS += [""]
ASKED = ["a.example", "A.B.", "10.0.0.1", "300.1.1.1", "x", "a..b", "-", "\u00e9"]
ASKED += ["a" * 64, "a." * 126 + "a", "a." * 127]


def read_grammar():
    """Puts the forms of the grammar's file into FORMS."""
    with open("checks/grammar.txt", encoding="utf-8") as grammar:
        for line in grammar:
            if line.startswith("  "):
                forms += line.rstrip("\n").replace("`", "\n").strip(" ").split("  ")
            elif not line.startswith("#"):
                forms = FORMS.setdefault(line.strip().removesuffix(":"), [])


def made(chance, kind, depth):
    """A text of the kind; forms within one another are at most so deep."""
    if depth <= 0:
        kind = SHALLOW.get(kind, kind)
    form = chance.choice(FORMS[kind])
    return re.sub("<([a-z]+)>", lambda place: made(chance, place[1], depth - 1), form)


def unescaped(field):
    """The text that a field of the tables of cases stands for."""
    signs = {"n": "\n", "r": "\r", "t": "\t", "\\": "\\"}
    pattern = r"\\(?:x(..)|u(....)|(.))"
    return re.sub(pattern, lambda it: signs.get(it[3], it[3]) if it[3] else chr(int(it[1] or it[2], 16)), field)


def rows():
    """The scripts of the table of runs: a part's rows are expressions, bodies or scripts."""
    value = 'function FindProxyForURL(url, host) { return "" + (@); }'
    body = "function FindProxyForURL(url, host) { @ }"
    shapes = {"values": value, "natives": value, "bodies": body, "scripts": "@", "counts": "@"}
    shape = None
    with open("crates/run_cases/stdin", encoding="utf-8") as table:
        for line in table:
            if line.startswith("part "):
                shape = shapes.get(line[5:].strip())
            elif shape and " => " in line and not line.startswith("#"):
                yield shape.replace("@", unescaped(line.split(" => ")[0]))


def contents(pattern):
    """The texts of files."""
    found = []
    for name in sorted(glob.glob(pattern)):
        with open(name, encoding="utf-8") as file:
            found.append(file.read())
    return found


class Mutants:
    """Makes cases of the examples, the table of runs and the forms above."""

    def __init__(self, commands):
        read_grammar()
        self.commands = commands
        self.scripts = contents("examples/*.pac")
        self.rows = list(rows())
        self.batches, self.names = contents("examples/*.batch"), contents("examples/*.names")

    def case(self, chance):
        command = chance.choice(self.commands)
        if command == "generate":
            return Case(command, [], self.generate_words(chance), {}, None)
        if command == "ask":
            server, options = server_of(chance, True)
            return Case(command, options, changed_words(chance, [chance.choice(ASKED)]), {}, server)
        files = {"script": self.script(chance)}
        if command == "check":
            return Case(command, [], changed_words(chance, ["script"]), files, None)
        return self.run(chance, command, files)

    def run(self, chance, command, files):
        """A case of `map` or `resolve`. Its fuel and its moment stay, so that it ends soon and sees no clock."""
        words = ["script"]
        if chance.random() < 0.5:
            words += ["--batch", "batch"]
            files["batch"] = self.batch(chance)
        else:
            words.append(made(chance, "url", 1) if chance.random() < 0.2 else made(chance, "sound", 1)[4:])
        if command == "map":
            words += ["--names", "names"]
            files["names"] = self.names_file(chance)
        words += chance.choice([[], [], ["--my-ip", "10.2.3.4"], ["--zone=+05:00"], ["--zone=-23:59"]])
        urls = max(1, files.get("batch", b"").count(b"get"))
        fuel = FUEL // urls // (AGAIN if command == "resolve" else 1)
        fixed = [f"--fuel={chance.choice([1, 20, 300, f'{fuel:020}'] + [fuel] * 8)}"]
        fixed += [f"--now={chance.choice(FORMS['moment'][:6])}"]
        words = fixed + changed_words(chance, words)
        server, options = server_of(chance, urls <= 8) if command == "resolve" else (None, [])
        return Case(command, options, words, files, server)

    @staticmethod
    def generate_words(chance):
        numbers = ["0", "1", "7", "4294967295", "4294967296", "00000000000000000001", "-1", "x", "", "9" * 21]
        sites = ["1", "3", "16", "64", "256", "257", "0", "x"]
        return changed_words(chance, [chance.choice(numbers), chance.choice(sites)])

    def script(self, chance):
        draw = chance.random()
        if draw < 0.5:
            text = made(chance, "script", chance.choice([3, 4, 5, 6]))
        elif draw < 0.75:
            text = chance.choice(self.rows)
        elif draw < 0.9:
            text = chance.choice(self.scripts)
        else:
            shape = chance.choice(list((NESTED | TWICE).values()))
            text = nested(chance.choice([1, 95, 97, 98, 99, 190, 196, 198, 199, 3_000]), *shape)
        return changed(chance, 0.4, text, self.scripts + self.rows)

    def batch(self, chance):
        text = chance.choice(self.batches) if chance.random() < 0.2 else "at 1000\n" * chance.randrange(2)
        lines = ["line"] if chance.random() < 0.1 else ["sound", "sound", "sound", "fared"]
        for _ in range(chance.choice([0, 1, 3, 8, 8, 20])):
            text += made(chance, chance.choice(lines), 3) + "\n"
        text += "get http://a.example/\n" * chance.choice([0] * 12 + [40, 255, 256, 257])
        return changed(chance, 0.15, text, self.batches)

    def names_file(self, chance):
        lines = [made(chance, "told", 1) + "\n" for _ in range(chance.choice([0, 1, 2, 5]))]
        text = chance.choice(self.names) if chance.random() < 0.2 else "".join(dict.fromkeys(lines))
        if chance.random() < 0.05:
            text += made(chance, "names", 2)
        return changed(chance, 0.1, text, self.names)


def server_of(chance, is_small):
    """The seed of a server, and the options that ask it, alone or behind a silent one. Where nothing is lost, a reply has
    ten seconds or more.
    """
    draw = chance.random()
    if draw < 0.05:
        return None, ["--server=255.255.255.255"]
    if draw < 0.1:
        return None, [NOBODY, "--second=127.0.0.1:2", "--wait=1", f"--tries={chance.choice([1, 2])}"]
    seed, there = chance.randrange(1 << 32), f"127.0.0.1:{PORT}"
    option = chance.choice([["--server", there], [f"--server={there}"]])
    if draw < 0.75 and is_small:
        return ("calm", seed), [*option, "--wait=100", "--tries=1"]
    if draw < 0.85 and is_small:
        return ("calm", seed), [NOBODY, "--second", there, "--wait=1", "--tries=8"]
    option += chance.choice([[], [], [f"--second={there}"], ["--second=127.0.0.1:1"]])
    return ("rough", seed), [*option, f"--wait={chance.choice([1, 1, 2])}", f"--tries={chance.choice([1, 2, 3])}"]


def changed_words(chance, words):
    """The words, some of them at times changed, dropped, doubled or put elsewhere."""
    words = list(words)
    if chance.random() < 0.9:
        return words
    for _ in range(chance.choice([1, 1, 2])):
        at = chance.randrange(len(words) + 1)
        word = chance.choice(ODD_WORDS)
        action = chance.randrange(4)
        if action == 0 and at < len(words):
            del words[at]
        elif action == 1 and at < len(words):
            words[at] = word
        elif action == 2 and words:
            words.insert(at, chance.choice(words))
        else:
            words.insert(at, word)
    return words


def changed(chance, share, text, others):
    """The bytes of a text, of which so great a share is changed in a few places."""
    is_changed = chance.random() < share
    for _ in range(chance.choice([0, 1, 1, 2, 4]) if is_changed else 0):
        text = chance.choice(CHANGES)(chance, text, others)
    octets = bytearray(text.encode("utf-8", "surrogatepass"))
    for _ in range(chance.choice([0, 0, 0, 1, 5]) if is_changed and octets else 0):
        octets[chance.randrange(len(octets))] ^= 1 << chance.randrange(8)
    return bytes(octets[: 1_048_577])


def place_in(chance, things):
    """Two places of a list or text, the second one not far behind the first."""
    begin = chance.randrange(len(things) + 1)
    return begin, min(len(things), begin + chance.choice([1, 1, 2, 5, 20, 200]))


def without_a_part(chance, text, others):
    parts = PARTS.findall(text)
    begin, end = place_in(chance, parts)
    return "".join(parts[:begin] + parts[end:])


def with_a_part_again(chance, text, others):
    parts = PARTS.findall(text)
    begin, end = place_in(chance, parts)
    times = min(chance.choice([2, 2, 3, 30, 1_000]), 200_000 // (len("".join(parts[begin:end])) + 1) + 2)
    return "".join(parts[:begin] + parts[begin:end] * times + parts[end:])


def with_parts_swapped(chance, text, others):
    parts = PARTS.findall(text)
    if len(parts) > 1:
        one, other = (chance.randrange(len(parts)) for _ in range(2))
        parts[one], parts[other] = parts[other], parts[one]
    return "".join(parts)


def with_a_part_of_another(chance, text, others):
    parts, strange = PARTS.findall(text), PARTS.findall(chance.choice(others))
    begin, end = place_in(chance, parts)
    low, high = place_in(chance, strange)
    return "".join(parts[:begin] + strange[low:high] + parts[end:])


def with_a_form(chance, text, others):
    """One part becomes a value, a statement or a sign."""
    parts = PARTS.findall(text) or [""]
    kind = chance.choice(["value", "statement", "number", "text", "name", None])
    parts[chance.randrange(len(parts))] = made(chance, kind, 2) if kind else chance.choice(SIGNS)
    return "".join(parts)


def with_a_sign(chance, text, others):
    at = chance.randrange(len(text) + 1)
    return text[:at] + chance.choice(SIGNS) * chance.choice([1, 1, 1, 2, 250, 20_000]) + text[at:]


def cut_off(chance, text, others):
    return text[: chance.randrange(len(text) + 1)]


def with_a_number_changed(chance, text, others):
    numbers = list(re.finditer(r"\d+", text))
    if not numbers:
        return text
    it = chance.choice(numbers)
    return text[: it.start()] + chance.choice(FORMS["number"]) + text[it.end() :]


CHANGES = [without_a_part, with_a_part_again, with_parts_swapped, with_a_part_of_another, with_a_part_of_another,
           with_a_form, with_a_form, with_a_sign, cut_off, with_a_number_changed]
