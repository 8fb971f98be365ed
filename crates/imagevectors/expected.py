#!/usr/bin/env python3
"""What imagevectors must print: images built octet by octet as docs/IMAGE.md sets them out and tested as document 01 says, with none of the proved code.

    python3 crates/imagevectors/expected.py | diff - crates/imagevectors/stdout
"""
import string
import sys

OCTETS = 5762
LARGEST = 2**64 - 1
MECHANISMS, MECHANISM, MOST_MECHANISMS = 18, 22, 8
SLOTS, SLOT, MOST_SLOTS = 194, 87, 64
HELD, NUMBER, PROFILE, PROTECTED, GREETED, TRANSACTION, PHASE, SENT, TICKET, NAME = 0, 1, 9, 10, 11, 12, 13, 14, 15, 23
PHASES = ("idle", "signed in", "awaiting", "waiting")
MECHANISM_OCTETS = (string.ascii_uppercase + string.digits + "-_").encode()
NAME_OCTETS = bytes(range(0x21, 0x7F))


def number(n):
    return n.to_bytes(8, "little")


def number_at(image, at):
    return int.from_bytes(image[at : at + 8], "little")


def mechanism_at(i):
    return MECHANISMS + MECHANISM * i


def slot_at(j):
    return SLOTS + SLOT * j


# ---- which images are taken


def is_padded(octets, allowed):
    """1 or more of the allowed octets, and NUL from there on."""
    name = octets.split(b"\0")[0]
    return name != b"" and all(x in allowed for x in name) and not any(octets[len(name) :])


def header_within(image):
    return image[16] <= 1 and image[17] <= MOST_MECHANISMS


def mechanisms_within(image):
    records = [image[mechanism_at(i) : mechanism_at(i + 1)] for i in range(MOST_MECHANISMS)]
    there, rest = records[: image[17]], records[image[17] :]
    names = {record[:20] for record in there}
    well_formed = all(is_padded(record[:20], MECHANISM_OCTETS) and max(record[20:]) <= 1 for record in there)
    return well_formed and len(names) == len(there) and not any(map(any, rest))


def session_within(slot):
    phase, sent, ticket, name = slot[PHASE], slot[SENT], slot[TICKET:NAME], slot[NAME:]
    return (
        all(slot[at] <= 1 for at in (PROFILE, PROTECTED, GREETED, TRANSACTION))
        and phase < len(PHASES)
        and sent <= (16 if phase in (2, 3) else 0)
        and (phase == 3 or not any(ticket))
        and (is_padded(name, NAME_OCTETS) if phase == 1 else not any(name))
    )


def slots_within(image):
    slots = [image[slot_at(j) : slot_at(j + 1)] for j in range(MOST_SLOTS)]
    held = [slot for slot in slots if slot[HELD] == 1]
    if any(any(slot) for slot in slots if slot[HELD] != 1) or held and image[16] != 1:
        return False
    numbers = [number_at(slot, NUMBER) for slot in held]
    tickets = [number_at(slot, TICKET) for slot in held if slot[PHASE] == 3]
    return all(map(session_within, held)) and all(
        len(set(issued)) == len(issued) and all(n < number_at(image, next_at) for n in issued) for issued, next_at in ((numbers, 0), (tickets, 8))
    )


def is_taken(image):
    image = bytes(image)
    return len(image) == OCTETS and header_within(image) and mechanisms_within(image) and slots_within(image)


# ---- images written


def store(image, at, octets):
    image[at : at + len(octets)] = octets


def make(image, connection, ticket):
    if len(image) == OCTETS:
        store(image, 0, bytes(OCTETS))
        store(image, 0, number(connection) + number(ticket))


def seal(image, connection, ticket):
    store(image, 0, number(connection) + number(ticket) + b"\1")


def add(image, i, name, client_first, needs_protection):
    if i < MOST_MECHANISMS:
        image[17] = i + 1
        store(image, mechanism_at(i), name.ljust(20, b"\0") + bytes([client_first, needs_protection]))


def connection(n, profile, protected=0, greeted=0, transaction=0, phase="idle", sent=0, ticket=0, name=b""):
    slot = bytearray(SLOT)
    slot[HELD] = 1
    store(slot, NUMBER, number(n))
    slot[PROFILE] = ("smtp", "pop3").index(profile)
    slot[PROTECTED], slot[GREETED], slot[TRANSACTION] = protected, greeted, transaction
    slot[PHASE], slot[SENT] = PHASES.index(phase), sent
    store(slot, TICKET, number(ticket))
    store(slot, NAME, name)
    return slot


def hold(image, j, slot):
    if j < MOST_SLOTS:
        store(image, slot_at(j), slot)


def free_slot(image, j):
    hold(image, j, bytes(SLOT))


def small():
    """A server of two mechanisms and five connections."""
    image = bytearray(OCTETS)
    add(image, 0, b"PLAIN", 1, 1)
    add(image, 1, b"CRAM-MD5", 0, 0)
    seal(image, 1000, 500)
    hold(image, 0, connection(7, "smtp", greeted=1))
    hold(image, 1, connection(8, "pop3", protected=1, phase="awaiting", sent=16))
    hold(image, 2, connection(999, "smtp", protected=1, greeted=1, phase="waiting", sent=16, ticket=499))
    hold(image, 3, connection(0, "pop3", phase="waiting", ticket=0))
    hold(image, 63, connection(300, "smtp", protected=1, greeted=1, transaction=1, phase="signed in", name=b"anna"))
    return image


EIGHT = (
    (b"PLAIN", 1, 1),
    (b"CRAM-MD5", 0, 0),
    (b"SCRAM-SHA-256-PLUS", 1, 0),
    (b"ABCDEFGH-IJKLM_01289", 0, 1),
    (b"A", 1, 1),
    (b"B", 1, 0),
    (b"C", 0, 1),
    (b"-_9", 0, 0),
)


def full():
    """A server of eight mechanisms and 64 connections, in all phases."""
    image = bytearray(OCTETS)
    for i, mechanism in enumerate(EIGHT):
        add(image, i, *mechanism)
    seal(image, LARGEST - 1, 564)
    for j in range(MOST_SLOTS):
        phase = PHASES[j % 4]
        bits = [j // n % 2 for n in (4, 8, 16, 32)]
        hold(
            image,
            j,
            connection(
                LARGEST - 2 - j,
                ("smtp", "pop3")[bits[0]],
                *bits[1:],
                phase=phase,
                sent=j % 17 if phase in ("awaiting", "waiting") else 0,
                ticket=500 + j if phase == "waiting" else 0,
                name=bytes(33 + (7 * k + j) % 94 for k in range(j + 3)) if phase == "signed in" else b"",
            ),
        )
    return image


# ---- what is printed


def quoted(octets):
    return '"' + "".join(chr(x) if 32 <= x <= 126 else f"\\x{x:02x}" for x in octets) + '"'


def taken(image):
    return "taken" if is_taken(image) else "not taken"


def print_changes(before, image):
    """The octets that are others than before, at most sixteen to a row, each row of neighbours."""
    row = []
    for i in [i for i in range(len(image)) if before[i] != image[i]] + [None]:
        if row and (i is None or i != row[-1] + 1 or len(row) == 16):
            print(f"  {row[0]}:", *(f"{image[k]:02x}" for k in row))
            row = []
        row.append(i)


def words(*pairs):
    return "".join(f" {word}" for is_so, word in pairs if is_so)


def print_header(image):
    print(f"header: {number_at(image, 0)} {number_at(image, 8)}" + words((image[16] == 1, "sealed")))


def print_mechanisms(image):
    print(f"mechanisms: {image[17]}")
    for i in (0, 1, 2, 7):
        record = image[mechanism_at(i) : mechanism_at(i + 1)]
        print(quoted(record[:20]) + words((record[20], "client first"), (record[21], "needs protection")))


def print_offer(image, name):
    for i in range(image[17]):
        record = image[mechanism_at(i) : mechanism_at(i + 1)]
        if record[:20] == name.ljust(20, b"\0"):
            print(f"offer {quoted(name)}: present" + ", client first" * record[20] + ", needs protection" * record[21])
            return
    print(f"offer {quoted(name)}: absent")


def print_slot(image, j):
    slot = image[slot_at(j) : slot_at(j + 1)] if j < MOST_SLOTS else bytes(SLOT)
    profile = ("smtp", "pop3")[slot[PROFILE]]
    marks = words((slot[PROTECTED], "protected"), (slot[GREETED], "greeted"), (slot[TRANSACTION], "transaction"))
    phase = PHASES[slot[PHASE]]
    sent = f" {slot[SENT]}" if phase in ("awaiting", "waiting") else ""
    ticket = f" {number_at(slot, TICKET)}" if phase == "waiting" else ""
    name = quoted(slot[NAME:].split(b"\0")[0])
    print(f"slot {j}: {number_at(slot, NUMBER)} {profile}{marks}, {phase}{ticket}{sent}, {name}")


# ---- the rows


def made():
    for numbers in ((0x0102030405060708, 0x1112131415161718), (0, 0), (1, 1), (LARGEST, LARGEST)):
        image = bytearray(b"\xaa" * OCTETS)
        make(image, *numbers)
        print("make", *numbers, end=f": {taken(image)}\n")
        print_changes(bytes(OCTETS), image)
        print_header(image)
    for n in (1, 5761, 5763):
        image = bytearray(b"\xaa" * n)
        make(image, 1, 1)
        print(f"make in {n} octets: {taken(image)}")
        print_changes(b"\xaa" * n, image)


def written():
    before, image = bytearray(OCTETS), bytearray(OCTETS)

    def after(text):
        print(f"{text}: {taken(image)}")
        print_changes(before, image)
        before[:] = image

    make(image, 5, 9)
    after("make")
    for i, *mechanism in ((0, b"PLAIN", 1, 1), (1, b"CRAM-MD5", 0, 0), (2, b"ABCDEFGH-IJKLM_01289", 1, 0), (8, b"X", 1, 1)):
        add(image, i, *mechanism)
        after(f"mechanism {i}")
    hold(image, 0, connection(4, "smtp"))
    after("slot 0, before it is sealed")
    free_slot(image, 0)
    after("slot 0, free")
    seal(image, LARGEST, LARGEST - 1)
    after("header")
    longest = b"!" + b"1234567890" * 6 + b"12~"
    for j, text, slot in (
        (0, ", idle", connection(0, "smtp")),
        (1, ", awaiting", connection(LARGEST - 1, "pop3", protected=1, phase="awaiting", sent=16)),
        (63, ", a name of 1", connection(258, "smtp", 1, 1, 0, "signed in", name=b"a")),
        (63, ", a name of 64", connection(258, "smtp", 1, 1, 1, "signed in", name=longest)),
        (1, ", waiting", connection(LARGEST - 1, "pop3", 1, phase="waiting", sent=16, ticket=LARGEST - 2)),
        (0, ", waiting on ticket 0", connection(0, "smtp", greeted=1, phase="waiting")),
        (63, ", a name of 2", connection(259, "pop3", 0, 0, 1, "signed in", name=b"bo")),
        (64, "", connection(259, "pop3", 0, 0, 1, "signed in", name=b"bo")),
    ):
        hold(image, j, slot)
        after(f"slot {j}{text}")
    print_header(image)
    print_mechanisms(image)
    for name in (b"PLAIN", b"CRAM-MD5", b"ABCDEFGH-IJKLM_01289", b"ABCDEFGH-IJKLM_0128", b"plain", b""):
        print_offer(image, name)
    for j in (0, 1, 2, 63, 64):
        print_slot(image, j)


class Finds:
    """Searches in an image; in octets of another length nothing is found."""

    def __init__(self, image):
        self.image = image

    def found(self, text, test):
        places = [j for j in range(MOST_SLOTS) if len(self.image) == OCTETS and test(self.image[slot_at(j) : slot_at(j + 1)])]
        print(f"{text}: slot {places[0]}" if places else f"{text}: nothing")

    def connection(self, n):
        self.found(f"connection {n}", lambda slot: slot[HELD] == 1 and number_at(slot, NUMBER) == n)

    def ticket(self, n):
        self.found(f"ticket {n}", lambda slot: slot[HELD] == 1 and slot[PHASE] == 3 and number_at(slot, TICKET) == n)

    def free(self):
        self.found("free", lambda slot: slot[HELD] == 0)

    def freed(self, j):
        free_slot(self.image, j)
        print(f"free_slot {j}: {taken(self.image)}")
        self.free()

    def opened(self, j, n):
        hold(self.image, j, connection(n, "pop3"))
        print(f"slot {j}: {taken(self.image)}")
        self.connection(n)
        self.free()


def each(function, *arguments):
    for argument in arguments:
        function(argument)


def finds():
    on = Finds(small())
    each(on.connection, 0, 7, 8, 999, 300, 9, 1000)
    each(on.ticket, 0, 499, 7, 500)
    on.free()
    on.freed(2)
    on.connection(999)
    on.ticket(499)
    on.freed(3)
    on.connection(0)
    on.ticket(0)
    each(on.freed, 0, 63, 64)
    on.opened(0, 0)
    on.opened(2, 7)
    on = Finds(full())
    on.free()
    each(on.connection, LARGEST - 2, LARGEST - 65, LARGEST - 66)
    each(on.ticket, 503, 563, 0)
    each(on.freed, 33, 63)
    on.opened(33, 1)
    on.opened(63, 0)
    on.freed(63)
    for n in (5761, 5762):
        print(f"{n} octets")
        part = Finds(on.image[:n])
        part.connection(LARGEST - 2)
        part.ticket(503)
        part.free()


HEADER_ROWS = (
    ("as it is", 0, b""),
    ("largest next numbers", 0, b"\xff" * 16),
    ("next connection 999", 0, (999).to_bytes(2, "little")),
    ("next connection 0", 0, b"\0\0"),
    ("next ticket 499", 8, (499).to_bytes(2, "little")),
    ("not sealed", 16, b"\0"),
    ("sealed 2", 16, b"\2"),
    ("sealed 255", 16, b"\xff"),
    ("no mechanism, two records", 17, b"\0"),
    ("one mechanism, two records", 17, b"\1"),
    ("three mechanisms, two records", 17, b"\3"),
    ("eight mechanisms, two records", 17, b"\x08"),
    ("nine mechanisms", 17, b"\x09"),
    ("no mechanism", 17, bytes(45)),
)

MECHANISM_ROWS = (
    ("another name", 0, 0, b"LOGIN"),
    ("name of 1", 0, 0, b"X\0\0\0\0"),
    ("name of 20", 0, 0, b"ABCDEFGH-IJKLM_01289"),
    ("no name", 0, 0, bytes(5)),
    ("small letter", 0, 0, b"p"),
    ("space", 0, 4, b" "),
    ("octet 128", 0, 4, b"\x80"),
    ("small letter at the end of 20", 0, 0, b"ABCDEFGH-IJKLM_0128a"),
    ("name of 20, then a flag 1", 0, 0, b"ABCDEFGH-IJKLM_01289\1"),
    ("dirt after a name", 0, 6, b"X"),
    ("dirt at a name's end", 0, 19, b"X"),
    ("NUL in a name", 0, 2, b"\0"),
    ("the same name", 1, 0, b"PLAIN\0\0\0"),
    ("almost the same name", 1, 0, b"PLAIN0\0\0"),
    ("server first", 0, 20, b"\0"),
    ("flag 2", 0, 20, b"\2"),
    ("flag 2", 1, 21, b"\2"),
    ("dirt in a record that is not there", 2, 0, b"X"),
    ("dirt in a record that is not there", 7, 21, b"\1"),
)

SLOT_ROWS = (
    ("held 2", 0, HELD, b"\2"),
    ("free, with a connection's octets", 0, HELD, b"\0"),
    ("freed", 0, HELD, bytes(87)),
    ("held, all else 0, number 0 twice", 4, HELD, b"\1"),
    ("held, number 1", 4, HELD, b"\1\1"),
    ("dirt in a free slot", 4, NUMBER, b"\1"),
    ("dirt in a free slot", 4, PHASE, b"\1"),
    ("dirt in a free slot", 62, NAME + 63, b"\1"),
    ("number 998", 0, NUMBER, (998).to_bytes(2, "little")),
    ("number 999 twice", 0, NUMBER, (999).to_bytes(2, "little")),
    ("number 1000", 0, NUMBER, (1000).to_bytes(2, "little")),
    ("number 8 twice", 0, NUMBER, b"\x08"),
    ("number 300 twice", 3, NUMBER, (300).to_bytes(2, "little")),
    ("large number", 3, NUMBER + 7, b"\1"),
    ("profile 1", 0, PROFILE, b"\1"),
    ("profile 2", 0, PROFILE, b"\2"),
    ("protected", 0, PROTECTED, b"\1"),
    ("protected 2", 0, PROTECTED, b"\2"),
    ("greeted 2", 0, GREETED, b"\2"),
    ("transaction 2", 0, TRANSACTION, b"\2"),
    ("phase 4", 0, PHASE, b"\4"),
    ("phase 255", 63, PHASE, b"\xff"),
    ("signed in without a name", 0, PHASE, b"\1"),
    ("idle to awaiting", 0, PHASE, b"\2"),
    ("idle to waiting on ticket 0, twice", 0, PHASE, b"\3"),
    ("idle to waiting on ticket 1", 0, PHASE, b"\3\0\1"),
    ("a challenge where none was sent", 0, SENT, b"\1"),
    ("a challenge of who is signed in", 63, SENT, b"\1"),
    ("15 challenges", 1, SENT, b"\x0f"),
    ("17 challenges", 1, SENT, b"\x11"),
    ("17 challenges", 2, SENT, b"\x11"),
    ("a ticket of who is idle", 0, TICKET, b"\1"),
    ("a ticket of who awaits", 1, TICKET, b"\1"),
    ("a ticket of who is signed in", 63, TICKET + 7, b"\1"),
    ("ticket 499 twice", 3, TICKET, (499).to_bytes(2, "little")),
    ("ticket 498", 3, TICKET, (498).to_bytes(2, "little")),
    ("ticket 0 twice", 2, TICKET, b"\0\0"),
    ("ticket 500", 2, TICKET, b"\xf4"),
    ("large ticket", 2, TICKET + 7, b"\1"),
    ("waiting to awaiting, with the ticket", 2, PHASE, b"\2"),
    ("waiting on ticket 0 to awaiting", 3, PHASE, b"\2"),
    ("a name of who is idle", 0, NAME, b"a"),
    ("a name of who awaits", 1, NAME, b"a"),
    ("a name's last octet of who waits", 2, NAME + 63, b"a"),
    ("idle with a name", 63, PHASE, b"\0"),
    ("name of 1", 63, NAME + 1, b"\0\0\0"),
    ("name of 64", 63, NAME, b"~" * 64),
    ("no name", 63, NAME, bytes(4)),
    ("NUL first", 63, NAME, b"\0"),
    ("NUL in a name", 63, NAME + 2, b"\0"),
    ("dirt after a name", 63, NAME + 5, b"a"),
    ("dirt at the end", 63, NAME + 63, b"\1"),
    ("space in a name", 63, NAME + 1, b" "),
    ("octet 33 in a name", 63, NAME + 1, b"!"),
    ("octet 127 in a name", 63, NAME + 1, b"\x7f"),
    ("octet 128 in a name", 63, NAME + 1, b"\x80"),
    ("POP3 in a transaction", 1, TRANSACTION, b"\1"),
    ("POP3 greeted", 1, GREETED, b"\1"),
    ("awaiting before a greeting", 2, GREETED, b"\0"),
    ("waiting in a transaction", 2, TRANSACTION, b"\1"),
    ("signed in on what is not protected", 63, PROTECTED, b"\0"),
)


def damage():
    rows = list(HEADER_ROWS)
    rows += [(text, mechanism_at(i) + at, octets) for text, i, at, octets in MECHANISM_ROWS]
    rows += [(text, slot_at(j) + at, octets) for text, j, at, octets in SLOT_ROWS]
    for text, at, octets in rows:
        image = small()
        store(image, at, octets)
        print(f"{text}, {at} {quoted(octets)}: {taken(image)}")
    for n in (0, 5761, 5762, 5763):
        print(f"{n} octets: {taken((small() + bytes(1))[:n])}")
    for x in (0, 1, 255):
        image = bytearray([x] * OCTETS)
        was = taken(image)
        make(image, 1, 1)
        seal(image, 1, 1)
        print(f"filled with {x}: {was}, made and sealed: {taken(image)}")


def sweep():
    image = full()
    print(f"full: {taken(image)}")
    print_changes(bytes(OCTETS), image)
    offsets = []
    for i in range(OCTETS):
        image[i] ^= 1 << i % 8
        if is_taken(image):
            offsets.append(i)
        image[i] ^= 1 << i % 8
    for start, end in ((0, 18), (18, 194), *((slot_at(j), slot_at(j + 1)) for j in (0, 1, 2, 3, 63)), (0, OCTETS)):
        within = [i for i in offsets if start <= i < end]
        print(f"from {start} to {end}: taken {len(within)}, sum {sum(within) % 65536}")
    print(f"full: {taken(image)}")


if __name__ == "__main__":
    sys.stdout.reconfigure(newline="\n")
    made()
    written()
    finds()
    damage()
    sweep()
