#!/usr/bin/env python3
"""What sessionvectors must print: the dialogues of src/dialogues.rt, stepped as document 01 says, with none of the proved code.

    python3 crates/sessionvectors/expected.py | diff - crates/sessionvectors/stdout
"""
import ast
import base64
import pathlib
import re
import sys

HERE = pathlib.Path(__file__).resolve().parent
sys.path.insert(0, str(HERE.parent / "vectors"))
import expected as papers  # the readings of lines and the table of replies

LARGEST = 2**64 - 1
TEXTS = {event: {"smtp": smtp, "pop3": "-ERR " + smtp.split(" ", 2)[2] if pop3 == "same" else pop3} for event, smtp, pop3 in papers.REPLIES}
VERDICTS = dict(zip(b"csrtpw", ("challenge", "success", "rejected", "temporary", "transition", "weak")))
IDENTITIES = {"": 0, " <>": 1, " none": 2, " address": 3}
SERVER = {b"PLAIN": ("client", "protected"), b"CRAM-MD5": ("server", "any"), b"CLIENT-ANY": ("client", "any"), b"SERVER-TLS": ("server", "protected")}


def shown(octets):
    return papers.quoted(octets) if len(octets) <= 100 else f"{len(octets)} octets"


class Refused(Exception):
    """The number of a refusal."""


class Connection:
    def __init__(self, profile, protected):
        self.profile, self.protected = profile, protected
        self.greeted = self.transaction = False
        self.name = self.sent = self.waits = None  # sent: challenges of a running exchange
        self.last, self.next = 0, 1

    # what is given: the text of the row, and its six numbers (refusal, kind, ticket, starts, length, identity)

    def forward(self, identity="", octets=None):
        octets_shown = "" if octets is None else f" {shown(octets)}"
        return f"forward{identity}{octets_shown}", (0, 0, 0, 0, len(octets or b""), IDENTITIES[identity])

    def hears(self, text):
        return shown(text + b"\r\n"), (0, 2, 0, 0, len(text) + 2, 0)

    def reply(self, event):
        return self.hears(TEXTS[event][self.profile].encode())

    def ends(self, event):
        self.sent = self.waits = None
        return self.reply(event)

    def challenge(self, octets):
        self.sent, self.waits = (self.sent or 0) + 1, None
        return self.hears((b"334 " if self.profile == "smtp" else b"+ ") + base64.b64encode(octets))

    def ask(self, octets, starts=0):
        if self.next == LARGEST:
            raise Refused(7)
        self.sent, self.waits, self.last = self.sent or 0, self.next, self.next
        self.next += 1
        return f"query {shown(octets)}", (0, 1, self.last, starts, len(octets), 0)

    def auth(self, line):
        if self.name is not None or self.profile == "smtp" and (not self.greeted or self.transaction):
            return self.reply("wrong moment")
        found = papers.read_auth(line)
        if found is None:
            return self.reply("grammar or base64")
        name, *response = found[1]
        speaks, needs = SERVER.get(name.rstrip(b"\0"), (None, None))
        if speaks is None or needs == "protected" and not self.protected:
            return self.reply("mechanism absent")
        if response:
            return self.ask(response[0]) if speaks == "client" else self.reply("initial response")
        return self.challenge(b"") if speaks == "client" else self.ask(b"", 1)

    def mail(self, line):
        if self.transaction:
            return self.reply("wrong moment")
        found = papers.read_mail(line)
        if found is None:
            return self.reply("grammar or base64")
        self.transaction = True
        text, octets = found
        if self.name is None or text == "MAIL, AUTH <>":
            return self.forward(" <>")
        return self.forward(" address", octets[0]) if octets else self.forward(" none")

    def command(self, line):
        reading = papers.read_command(self.profile, line)[0]
        verb = line.split(b" ")[0].upper()
        if reading == "not understood":
            return self.reply("command too long")
        if verb == b"AUTH":
            return self.auth(line)
        if reading == "not permitted":
            return self.reply("wrong moment")
        if self.profile == "smtp":
            if verb == b"MAIL":
                return self.mail(line)
            if reading == "malformed":
                return self.reply("grammar or base64")
            if verb in (b"EHLO", b"HELO"):
                self.greeted, self.transaction = verb == b"EHLO", False
            if verb == b"RSET":
                self.transaction = False
        return self.forward()

    def line(self, line):
        if self.waits is not None:
            raise Refused(3)
        if self.sent is None:
            return self.command(line)
        reading, octets = papers.read_response(self.profile, line)
        if reading == "too long":
            return self.ends("answer too long")
        if reading == "cancelled":
            return self.ends('"*"')
        return self.ask(octets[0]) if octets else self.ends("grammar or base64")

    def verdict(self, ticket, verdict, octets):
        if self.waits != ticket:
            raise Refused(4)
        if verdict == "challenge":
            if len(octets) > 9210:
                raise Refused(5)
            return self.challenge(octets) if self.sent < 16 else self.ends("temporary")
        if verdict == "success":
            if not 1 <= len(octets) <= 64 or any(not 0x21 <= x <= 0x7E for x in octets):
                raise Refused(5)
            self.name = octets
        elif octets:
            raise Refused(5)
        return self.ends(verdict)

    def event(self, kind, octets):
        if kind == ord(">"):
            return self.line(octets)
        if kind in VERDICTS:
            return self.verdict(self.last, VERDICTS[kind], octets)
        if kind == ord("#"):
            size, begin = octets.split(b" ", 1)
            return self.line(begin + b"A" * (int(size) - len(begin)))
        if kind == ord("C"):
            return self.verdict(self.last, "challenge", b"A" * int(octets))
        if kind in b"ob":
            return self.verdict(77 if kind == ord("o") else (self.last - 1) % 2**64, "success", octets)
        if kind in b"mM":
            self.next = LARGEST - (kind == ord("M"))
        elif kind == ord("g"):
            self.greeted = True
        elif kind in b"en":
            self.transaction = kind == ord("n")
        else:
            raise SystemExit(f"no kind of event: {chr(kind)}; it is one of > # c s r t p w C o b e g n m M")
        return "done", None

    def stands(self):
        if self.waits is not None:
            where = f"waiting {self.waits} {self.sent}"
        elif self.sent is not None:
            where = f"awaiting {self.sent}"
        else:
            where = "idle" if self.name is None else papers.quoted(self.name)
        return where + ", greeted" * self.greeted + ", transaction" * self.transaction

    def row(self, text):
        try:
            given, numbers = self.event(text[0], text[1:])
        except Refused as refusal:
            given, numbers = "refused", (refusal.args[0], 0, 0, 0, 0, 0)
        listed = "" if numbers is None else f" ({' '.join(map(str, numbers))})"
        print(f"{self.profile} {papers.quoted(text)}: {given}{listed}; {self.stands()}")


CALL = re.compile(r'\b(?:on_(?P<on>smtp|pop3)|dialogue)\(\s*(?:rt,\s*)?(?:Profile::(?P<by>\w+),\s*(?P<protected>true|false),\s*)?(?P<events>b"(?:[^"\\]|\\.)*"),?\s*\)')

if __name__ == "__main__":
    sys.stdout.reconfigure(newline="\n")
    for call in CALL.finditer((HERE / "src" / "dialogues.rt").read_text()):
        print()
        connection = Connection(call["on"] or call["by"].lower(), call["protected"] != "false")
        for text in ast.literal_eval(call["events"]).split(b"|"):
            if text:
                connection.row(text)
