"""Replies to questions as docs/DNS.md reads them, and scripted servers that cut, repeat, reorder, flip and flood them.

What a server sends is decided by the name and by how often it was asked, never by the time.
"""
import random
import socket

from resolve import reply

IN, ADDRESS, ALIAS, ADDRESS6 = 1, 1, 5, 28
# the octets of an address by the type of its records, and how it is written
LENGTHS, FAMILIES = {ADDRESS: 4, ADDRESS6: 16}, {ADDRESS: socket.AF_INET, ADDRESS6: socket.AF_INET6}
LONGEST, STEPS = 512, 16


def name_at(message, at):
    """The labels of the name at an offset, in lower case, and the offset behind it; None where no name stands."""
    labels, piece, behind = [], at, None
    while at < len(message) and message[at] > 0:
        first = message[at]
        if first >= 192 and at + 1 < len(message):
            target = (first - 192) * 256 + message[at + 1]
            if target >= piece:
                return None
            behind = behind or at + 2
            piece = at = target
        elif first < 64 and at + 1 + first <= len(message):
            labels.append(message[at + 1 : at + 1 + first].lower())
            at += 1 + first
        else:
            return None
    if at >= len(message) or sum(len(label) + 1 for label in labels) + 1 > 255:
        return None
    return labels, behind or at + 1


def kind_of(question):
    """The type that a question asks for."""
    return question[name_at(question, 12)[1] + 1]


def octets_of(address):
    return socket.inet_pton(socket.AF_INET6 if ":" in address else socket.AF_INET, address)


def record_at(message, at, asked):
    """A record (owner, type, its alias or the octets of its data) and the offset behind it, or None. Of another class
    than IN it has no type. The length of an address is that of its type where it is A or the asked one.
    """
    owner = name_at(message, at)
    if owner is None or owner[1] + 10 > len(message):
        return None
    head = message[owner[1] : owner[1] + 10]
    kind, space, length = (int.from_bytes(head[at : at + 2], "big") for at in (0, 2, 8))
    begin, end = owner[1] + 10, owner[1] + 10 + length
    if end > len(message):
        return None
    data = message[begin:end]
    if space == IN and kind in (ADDRESS, asked) and length != LENGTHS[kind]:
        return None
    if space == IN and kind == ALIAS:
        target = name_at(message, begin)
        if target is None or target[1] != end:
            return None
        data = target[0]
    return (owner[0], kind if space == IN else None, data), end


def answer_in(question, datagram):
    """The address in a datagram that is a reply to the question, `-` where it says that there is none, or None."""
    asked, kind = name_at(question, 12)[0], kind_of(question)
    if not 12 <= len(datagram) <= LONGEST or datagram[:2] != question[:2]:
        return None
    code = datagram[3] & 15
    if datagram[2] & 0xFA != 0x80 or code not in (0, 3) or datagram[4:6] != b"\0\1":
        return None
    found = name_at(datagram, 12)
    if found is None or found[0] != asked or datagram[found[1] : found[1] + 4] != bytes([0, kind, 0, IN]):
        return None
    if code == 3:
        return "-"
    records, at = [], found[1] + 4
    for _ in range(int.from_bytes(datagram[6:8], "big")):
        read = record_at(datagram, at, kind)
        if read is None:
            return None
        records.append(read[0])
        at = read[1]
    return address_of(asked, kind, records)


def address_of(name, asked, records):
    """The address of a name by the records of the asked type, along its aliases."""
    for _ in range(STEPS):
        alias = next((data for owner, kind, data in records if kind == ALIAS and owner == name), None)
        if alias is None:
            break
        name = alias
    found = (data for owner, kind, data in records if kind == asked and owner == name)
    address = next(found, None)
    return socket.inet_ntop(FAMILIES[asked], address) if address else "-"


def record(owner, kind, data, space=IN):
    return owner + bytes([0, kind, 0, space, 0, 0, 0, 60]) + len(data).to_bytes(2, "big") + data


def with_records(question, records, flags=0x8180):
    counts = b"\0\1" + len(records).to_bytes(2, "big") + bytes(4)
    return question[:2] + flags.to_bytes(2, "big") + counts + question[12:] + b"".join(records)


def plain(chance, question, address):
    return reply(question, address)


def in_capitals(chance, question, address):
    sound = reply(question, address)
    return sound[:12] + question[12:].upper() + sound[len(question) :]


def with_more_behind(chance, question, address):
    return reply(question, address) + chance.randbytes(chance.randrange(1, 40))


def along_aliases(chance, question, address):
    """The name's alias and the alias's address, in any order."""
    alias = b"\x04here\x07example\0"
    records = [record(b"\xc0\x0c", ALIAS, alias)]
    records += [record(alias, kind_of(question), octets_of(address))] if address else []
    chance.shuffle(records)
    return with_records(question, records)


def among_others(chance, question, address):
    """The address among records of other types, classes and names."""
    others = [record(b"\xc0\x0c", 16, b"\x04text"), record(b"\xc0\x0c", ADDRESS, b"\x0a\x09\x09\x09", 3)]
    kind = kind_of(question)
    other = ADDRESS + ADDRESS6 - kind
    others += [record(b"\x05other\0", kind, bytes(LENGTHS[kind])), record(b"\xc0\x0c", other, bytes(LENGTHS[other]))]
    own = [record(b"\xc0\x0c", kind, octets_of(address))] if address else []
    return with_records(question, others[: chance.randrange(5)] + own + others[chance.randrange(5) :])


SOUND = [plain, plain, in_capitals, with_more_behind, along_aliases, among_others]
NEAR = ["10.0.0.1", "172.16.5.4", "2001:db8::1", "::ffff:10.0.0.1"]


def address_in(chance, question):
    """An address of the asked family, or none."""
    address = chance.choice([None, *NEAR[:2]])
    return address and NEAR[NEAR.index(address) + (2 if kind_of(question) == ADDRESS6 else 0)]


def cut(chance, question):
    """A reply that ends too early."""
    whole = reply(question, "10.9.9.9")
    return whole[: chance.randrange(len(whole))]


def strange(chance, question):
    """A datagram that is no reply to the question."""
    whole, behind = reply(question, "10.9.9.9"), (0xC000 | len(question)).to_bytes(2, "big")
    return chance.choice([
        lambda: b"",
        lambda: question,
        lambda: chance.randbytes(chance.randrange(600)),
        lambda: bytes([whole[0] ^ 1 << chance.randrange(8)]) + whole[1:],
        lambda: whole[:2] + bytes([whole[2] ^ chance.choice([2, 8, 64, 128])]) + whole[3:],
        lambda: whole[:3] + bytes([whole[3] & 0xF0 | chance.choice([1, 2, 4, 5, 15])]) + whole[4:],
        lambda: with_records(question, [record(behind, ADDRESS, b"\x0a\x09\x09\x09")]),
        lambda: with_records(question, [record(b"\xc0\xff", ADDRESS, b"\x0a\x09\x09\x09")]),
        lambda: with_records(question, [record(b"\xc0\x0c", ADDRESS, b"\x0a\x09\x09\x09\x09")]),
        lambda: with_records(question, [record(b"\xc0\x0c", ALIAS, b"\x01a\xc0\x0c\0")]),
        lambda: whole + bytes(LONGEST),
    ])()


def flipped(chance, question):
    """A reply with some bits that differ."""
    octets = bytearray(chance.choice([plain, along_aliases])(chance, question, "10.9.9.9"))
    for _ in range(chance.randrange(1, 4)):
        octets[chance.randrange(2, len(octets))] ^= 1 << chance.randrange(8)
    return bytes(octets)


class Calm:
    """Answers each name once, in up to seven datagrams, of which the first one that is a reply decides."""

    is_calm = True

    def __init__(self, seed):
        self.seed, self.told = seed, {}

    def datagrams(self, asked):
        chance = random.Random(f"{self.seed} {asked.name}")
        question = asked.datagram
        address = address_in(chance, question)
        makers = [cut, strange, flipped, flipped]
        found = [chance.choice(makers)(chance, question) for _ in range(chance.choice([0, 0, 1, 3]))]
        found.append(chance.choice(SOUND)(chance, question, address))
        found += [chance.choice(makers)(chance, question) for _ in range(chance.choice([0, 1, 3]))]
        return found + [reply(question, "10.9.9.9")] * chance.randrange(2)

    def __call__(self, asked):
        """The datagrams, each with the seconds until it is sent; those for one name stay in order."""
        found = self.datagrams(asked)
        self.told[asked.name] = next(filter(None, (answer_in(asked.datagram, datagram) for datagram in found)))
        chance, delay = random.Random(f"{self.seed} {asked.name} later"), 0.0
        for datagram in found:
            delay += chance.choice([0, 0, 0.001, 0.005])
            yield delay, datagram


class Rough:
    """Answers some names at once, some only when they are asked again and some never, among many other datagrams, which
    may fill a socket so that a reply is lost. All replies to a name are equal.
    """

    is_calm = False

    def __init__(self, seed):
        self.seed, self.told = seed, {}

    def __call__(self, asked):
        of_name = random.Random(f"{self.seed} {asked.name}")
        first, address = of_name.choice([1, 1, 1, 2, 3, 99]), address_in(of_name, asked.datagram)
        sound = of_name.choice(SOUND)(of_name, asked.datagram, address)
        self.told[asked.name] = answer_in(asked.datagram, sound)
        chance = random.Random(f"{self.seed} {asked.name} {asked.turn}")
        found = [strange(chance, asked.datagram) for _ in range(chance.choice([0, 0, 2, 20]))]
        found += [b""] * chance.choice([0, 0, 0, 300, 4_200]) + [bytes(60_000)] * chance.choice([0, 0, 1, 9])
        if asked.turn >= first:
            found.insert(chance.randrange(len(found) + 1), sound)
            found += [sound] * chance.randrange(3)
        return [(0, datagram) for datagram in found]
