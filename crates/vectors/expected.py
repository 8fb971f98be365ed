#!/usr/bin/env python3
"""What vectors must print, made from the papers with Python's own base64 and none of the proved code.

    python3 crates/vectors/expected.py | diff - crates/vectors/stdout
"""
import base64
import binascii
import re
import sys

LARGEST = 2**64 - 1


def base64_decoded(text):
    """RFC 4648 section 4 with document 01's strictness: a text is taken only if it is the encoding of its octets."""
    try:
        octets = base64.b64decode(text, validate=True)
    except binascii.Error:
        return None
    return octets if base64.b64encode(octets) == text else None


LETTERS = b"ABCDEFGHIJKLMNOPQRSTUVWXYZabcdefghijklmnopqrstuvwxyz0123456789+/"


def base64_unchecked(text):
    """A group that more text follows by its letters' numbers, 64 for any other octet; the last group by its form."""
    octets = b""
    while len(text) > 4:
        bits = 0
        for x in text[:4]:
            bits = bits * 64 + (LETTERS.index(x) if x in LETTERS else 64)
        octets += (bits % 2**24).to_bytes(3, "big")
        text = text[4:]
    return octets + ((base64_decoded(text) or b"") if len(text) == 4 else b"")


XCHARS = [*range(0x21, 0x2B), *range(0x2C, 0x3D), *range(0x3E, 0x7F)]


def xtext_decoded(text):
    """RFC 4954 section 8, digits in capitals only (document 01)."""
    octets = bytearray()
    while text:
        if text[:1] == b"+":
            digits = text[1:3]
            if len(digits) < 2 or not all(d in b"0123456789ABCDEF" for d in digits):
                return None
            octets.append(int(digits, 16))
            text = text[3:]
        elif text[0] in XCHARS:
            octets.append(text[0])
            text = text[1:]
        else:
            return None
    return bytes(octets)


def xtext_encoded(octets):
    return b"".join(bytes([x]) if x in XCHARS else b"+%02X" % x for x in octets)


FORMS = {"base64": (base64_decoded, base64.b64encode), "xtext": (xtext_decoded, xtext_encoded)}


def quoted(octets):
    return '"' + "".join(chr(x) if 32 <= x <= 126 else f"\\x{x:02x}" for x in octets) + '"'


def measured(octets):
    return "malformed" if octets is None else f"length {len(octets)}"


def decoded(octets, room):
    return "short" if octets is not None and room < len(octets) else measured(octets)


def filled(row, octets):
    return row if octets is None or len(row) < len(octets) else octets + row[len(octets):]


def read(form, text):
    decode, encode = FORMS[form]
    octets = decode(text)
    shown = "" if octets is None else f", {quoted(octets)}, again {quoted(encode(octets))}"
    print(f"{form} {quoted(text)}: {measured(octets)}{shown}")


def read_each(form, texts):
    for text in texts.split(b"|"):
        read(form, text)


def read_part(form, line, start, end):
    octets = FORMS[form][0](line[start:end] if start < end else b"")
    row = filled(b"." * 20, octets)
    print(f"{form} {quoted(line)} from {start} to {end}: {measured(octets)}, {decoded(octets, 20)}, {quoted(row)}")


def decode_into(form, text, room):
    octets = FORMS[form][0](text)
    lent = filled(b"." * room, octets)
    print(f"{form} {quoted(text)} into {room}: {decoded(octets, room)}, {quoted(lent + b'.' * (8 - room))}")


def unchecked_into(text, room):
    lent = filled(b"." * room, base64_unchecked(text))
    print(f"base64 {quoted(text)} unchecked into {room}, {quoted(lent + b'.' * (8 - room))}")


def encode_into(form, octets, room, at):
    text = FORMS[form][1](octets)
    row, answer = b"." * 8, "short"
    if at + len(text) <= room:
        row, answer = row[:at] + text + row[at + len(text):], f"end {at + len(text)}"
    print(f"{form} of {quoted(octets)} into {room} from {at}: {answer}, {quoted(row)}")


def taken(form, text):
    counts = []
    for place in range(4):
        others = [text[:place] + bytes([x]) + text[place + 1:] for x in range(256)]
        counts.append(str(sum(FORMS[form][0](other) is not None for other in others)))
    print(f"{form} {quoted(text)} with another octet at each place, taken: {' '.join(counts)}")


def all_octets(form):
    text = FORMS[form][1](bytes(range(256)))
    print(f"{form} of all octets: end {len(text)}, {quoted(text)}, length 256, the same")


def letters(count):
    octets = base64_decoded(b"A" * count)
    print(f"{count} letters: {measured(octets)}, {decoded(octets, 9216)}")


def base64_cases():
    for octets in (b"", b"f", b"fo", b"foo", b"foob", b"fooba", b"foobar"):
        print(f"BASE64({quoted(octets)}) = {quoted(base64.b64encode(octets))}")
    read_each("base64", b"|Zg==|Zm8=|Zm9v|Zm9vYg==|Zm9vYmE=|Zm9vYmFy|dGVzdAB0ZXN0ADEyMzQ="
                        b"|cmpzMyBlYzNhNTlmZWQzOTVhYmExZWM2MzY3YzRmNGI0MWFjMA==|dGVzdAB0ZXN0AHRlc3Q=|QUIT")
    read_each("base64", b"Zh==|Zm9=|=AAA|=|====|A===|AA=A|AAA=BBB|AAA=BBBB|AA==AAAA|AAAAA|AAAAAA|Zm9|Zm9v |Zm9v\r\n|Zm\x009|Zm9-|Zm9_|Zm9\xff|*")
    for text, room in ((b"Zm9v", 5), (b"Zm9v", 3), (b"Zm9v", 2), (b"Zh==", 5), (b"", 0)):
        decode_into("base64", text, room)
    for text, room in ((b"", 8), (b"Zg==", 8), (b"Zm8=", 8), (b"Zm9v", 8), (b"Zm9vYg==", 8), (b"Zm9vYmE=", 8), (b"Zm9vYmFy", 8), (b"Zm9vYmFy", 6),
                       (b"Zm9vYmFy", 5), (b"Zm9vYg==", 4), (b"Zm9vYg==", 3), (b"", 0)):
        unchecked_into(text, room)
    for text, room in ((b"Zh==", 8), (b"Zm9vZh==", 8), (b"Zm9=Zm9v", 8), (b"AA==AAAA", 8), (b"=AAA=AAA", 8), (b"AAAAA", 8), (b"Zm9vAAA", 8), (b"Zm9vAAA", 3),
                       (b"Zm9vAAA", 2), (b"Zm9", 8), (b"====", 8), (b"========", 8), (b"Zm\x009Zm9v", 8), (b"\xff\xff\xff\xffZm9v", 8)):
        unchecked_into(text, room)
    for octets, room, at in ((b"foo", 8, 2), (b"foo", 8, 4), (b"foo", 8, 5), (b"f", 4, 0), (b"", 4, 4), (b"", 4, 5), (b"foo", 4, LARGEST)):
        encode_into("base64", octets, room, at)
    for start, end in ((11, 15), (11, 99), (10, 15), (15, 15), (15, 11), (99, LARGEST)):
        read_part("base64", b"AUTH PLAIN Zm9v", start, end)
    taken("base64", b"AAAA")
    all_octets("base64")
    for count in (12280, 12284, 12285, 12286, 12287):
        letters(count)


def xtext_cases():
    read_each("xtext", b"e+3Dmc2@example.com||<>|+3C+3E|+2B|+61|+3D+41+42|+00+0A+FF|!*,<>~")
    read_each("xtext", b"+3d|+3D+4a|e=mc2@example.com|a b|a\r\n|a\x00|a\x7f|a\xff|+|+3|a+|a+3|++3D|+G0|+0G|+0/|+:0|+@0")
    for text, room in ((b"a+3Db", 5), (b"a+3Db", 3), (b"a+3Db", 2), (b"a+3db", 5), (b"", 0)):
        decode_into("xtext", text, room)
    for octets, room, at in ((b"a=b", 8, 1), (b"a=b", 8, 3), (b"a=b", 8, 4), (b"abc", 8, 5), (b"abc", 8, 6), (b"", 4, 4), (b"", 4, 5), (b"a=b", 8, LARGEST)):
        encode_into("xtext", octets, room, at)
    for start, end in ((35, 54), (35, LARGEST), (34, 54), (54, 54), (54, 35)):
        read_part("xtext", b"MAIL FROM:<e=mc2@example.com> AUTH=e+3Dmc2@example.com", start, end)
    taken("xtext", b"+00A")
    all_octets("xtext")


# document 01's tables: the limits, and what a client hears ("same": -ERR, a space and the words after the codes)
LIMITS = {
    "smtp": {"command": 510, "MAIL": 1010, "response": 12286},
    "pop3": {"command": 253, "MAIL": 253, "response": 12286},
}
REPLIES = [
    ("success", "235 2.7.0 Authentication succeeded", "+OK Authenticated"),
    ("transition", "432 4.7.12 Password transition needed", "-ERR [AUTH] Password transition needed"),
    ("temporary", "454 4.7.0 Temporary authentication failure", "-ERR [SYS/TEMP] Temporary authentication failure"),
    ("weak", "534 5.7.9 Mechanism too weak", "same"),
    ("rejected", "535 5.7.8 Credentials not accepted", "-ERR [AUTH] Credentials not accepted"),
    ("answer too long", "500 5.5.6 Authentication line too long", "same"),
    ("command too long", "500 5.5.2 Line not understood", "same"),
    ("grammar or base64", "501 5.5.2 Syntax error", "same"),
    ('"*"', "501 5.7.0 Authentication cancelled", "same"),
    ("initial response", "501 5.7.0 Initial response not allowed", "same"),
    ("wrong moment", "503 5.5.1 Not permitted now", "same"),
    ("mechanism absent", "504 5.5.4 Mechanism not available", "same"),
]
BOTH = "smtp", "pop3"
AUTH = re.compile(rb"(?i:AUTH) ([A-Za-z0-9_-]{1,20})(?: (.+))?", re.DOTALL)
MAIL = re.compile(rb"(?i:MAIL FROM:)<[^>]*>((?: [A-Za-z0-9][A-Za-z0-9-]*(?:=[!-<>-~]+)?)*)", re.DOTALL)


def read_auth(line):
    """Shown numbers, and what the line has beside them, the mechanism in capitals (M-105); None where it is malformed."""
    match = AUTH.fullmatch(line)
    if not match:
        return None
    name, text = match[1].upper(), match[2]
    if text is None:
        return f"AUTH up to {match.end(1)}", [name.ljust(20, b"\0")]
    octets = b"" if text == b"=" else base64_decoded(text)
    if octets is None:
        return None
    start = len(line) if text == b"=" else match.start(2)
    return f"AUTH up to {match.end(1)}, from {start} length {len(octets)}", [name.ljust(20, b"\0"), octets]


def is_address(octets):
    """An octet before and after some "@"."""
    return re.search(b".@.", octets, re.DOTALL) is not None


def read_mail(line):
    match = MAIL.fullmatch(line)
    if not match:
        return None
    found, place, shown = set(), match.start(1), ("MAIL, no AUTH", [])
    for parameter in match[1].split(b" ")[1:]:
        place += 1
        keyword, _, value = parameter.partition(b"=")
        if keyword.upper() in (b"AUTH", b"SUBMITTER"):
            octets = xtext_decoded(value)
            null = keyword.upper() == b"AUTH" and octets == b"<>"
            if keyword.upper() in found or octets is None or not (null or is_address(octets)):
                return None
            found.add(keyword.upper())
            if null:
                shown = "MAIL, AUTH <>", []
            elif keyword.upper() == b"AUTH":
                shown = f"MAIL, AUTH from {place + 5} to {place + len(parameter)} length {len(octets)}", [octets]
        place += len(parameter)
    return shown


def read_command(profile, line):
    verb = line.split(b" ")[0].upper()
    limit = LIMITS[profile]["MAIL" if verb == b"MAIL" else "command"]
    if len(line) > limit or any(x in line for x in b"\0\r\n"):
        return "not understood", []
    if verb == b"AUTH":
        return read_auth(line) or ("AUTH malformed", [])
    if profile == "pop3":
        return ("not permitted" if verb in (b"USER", b"PASS", b"APOP") else "other"), []
    if verb == b"MAIL":
        return read_mail(line) or ("MAIL malformed", [])
    if verb in (b"EHLO", b"HELO"):
        return (verb.decode() if len(line) > 5 else "malformed"), []
    if verb in (b"RSET", b"QUIT"):
        return (verb.decode() if len(line) == 4 else "malformed"), []
    return "other", []


def read_response(profile, line):
    if len(line) > LIMITS[profile]["response"]:
        return "too long", []
    if line == b"*":
        return "cancelled", []
    octets = base64_decoded(line)
    return measured(octets), [] if octets is None else [octets]


def shown(reading):
    return ", ".join([reading[0], *map(quoted, reading[1])])


def each_line(profiles, lines):
    for profile in profiles:
        for line in lines.split(b"|"):
            print(f"{profile} {quoted(line)}: {shown(read_command(profile, line))}")


def each_response(profile, lines):
    for line in lines.split(b"|"):
        print(f"{profile} response {quoted(line)}: {shown(read_response(profile, line))}")


def with_each(profile, line, place):
    others = [line[:place] + bytes([x]) + line[place + 1:] for x in range(256)]
    misses = ("not understood", "malformed", "AUTH malformed", "MAIL malformed")
    count = sum(read_command(profile, other)[0] not in misses for other in others)
    print(f"{profile} {quoted(line)} with each octet at {place}, read: {count}")


def long_line(profile, begin, size, end=b""):
    line = begin + b"A" * (size - len(begin) - len(end)) + end
    print(f"{profile} {quoted(begin)} and letters, {size} octets: {read_command(profile, line)[0]}")


def long_response(profile, size):
    print(f"{profile} response of {size} letters: {read_response(profile, b'A' * size)[0]}")


def huge(profile):
    line = b"A" * 100000
    print(f"{profile} response of {len(line)} letters: {read_response(profile, line)[0]}, as a command {read_command(profile, line)[0]}")


def number_cases():
    """Profiles as document 01 numbers them; verdicts in its order from 0."""
    for number in (0, 1, 2, 256, LARGEST):
        print(f"profile {number}: {dict(enumerate(BOTH)).get(number, 'not listed')}")
    verdicts = dict(enumerate(("challenge", "success", "rejected", "temporary", "transition", "weak")))
    for number in (*range(7), 256, LARGEST):
        print(f"verdict {number}: {verdicts.get(number, 'not listed')}")


def reply_cases():
    for event, smtp, pop3 in REPLIES:
        words = "-ERR " + smtp.split(" ", 2)[2] if pop3 == "same" else pop3
        print(f"smtp {event}: {quoted((smtp + chr(13) + chr(10)).encode())}")
        print(f"pop3 {event}: {quoted((words + chr(13) + chr(10)).encode())}")
    print(f"smtp challenge begins: {quoted(b'334 ')}")
    print(f"pop3 challenge begins: {quoted(b'+ ')}")


def line_cases():
    each_line(BOTH, b"EHLO client.example.com|ehlo a|EHLO|EHLO |EHLO  |HELO a|Helo a|HELO|HELO |RSET|rset|RSET |RSET x|QUIT|Quit|QUIT |QUIT x|STARTTLS|CAPA|")
    each_line(BOTH, b" EHLO a|EHL|EHLOX a|EHLO\ta|RSET\t|AUTH\tPLAIN|MAILX FROM:<a>|USER anna|user|PASS x|pass|APOP a b|apop|USERS|USER\t")
    each_line(BOTH, b"NOOP\x00|NOOP\r|NOOP\n|NOOP\x0c|NOOP\xff|EHLO a\r|AUTH PLAIN\x00|USER a\n|MAIL FROM:<\n>|\x00")
    with_each("smtp", b"NOOP ", 4)
    with_each("pop3", b"USER ", 4)
    each_line(BOTH, b"AUTH PLAIN dGVzdAB0ZXN0ADEyMzQ=|AUTH PLAIN|AUTH CRAM-MD5|AUTH EXTERNAL =|AUTH PLAIN dGVzdAB0ZXN0AHRlc3Q=|AUTH DIGEST-MD5|AUTH PLAIN Zm9v|auth X_Y-9 Zg==|AUTH ABCDEFGHIJKLMNOPQRST|AUTH 0")
    each_line(BOTH, b"AUTH|AUTH |AUTH  PLAIN|AUTH PLAIN |AUTH PLAIN  Zm9v|AUTH PLAIN Zm9v |AUTH PLAIN Zm9v x|AUTH PLAIN ==|AUTH PLAIN =A|AUTH PLAIN *|AUTH PLAIN Zh==|AUTH PLAIN Zm9|AUTH NOSUCH !!")
    each_line(BOTH, b"AUTH plain|AUTH pLaIn Zg==|AUTH PLAIn =|auth cram-md5|AUTH Cram-Md5 Zm9v|auth x_y-9 =|AUTH nosuch|AUTH azAZ|AUTH abcdefghijklmnopqrst")
    each_line(BOTH, b"AUTH plain.|AUTH pl@in|AUTH pl[in|AUTH pl`in|AUTH pl{in|AUTH pl\xc1in|AUTH pl\xe1in|AUTH \x80lain|AUTH plai\xff|"
                    b"AUTH plain |AUTH plain !|AUTH nosuch !!|AUTH abcdefghijklmnopqrstu|AUTH abcdefghijklmnopqrstu Zm9v")
    each_line(BOTH, b"AUTH PL.AIN|AUTH PLAIN\t|AUTH =|AUTH ABCDEFGHIJKLMNOPQRSTU|AUTH ABCDEFGHIJKLMNOPQRSTU Zm9v|AUTHX PLAIN|AUTHPLAIN")
    with_each("smtp", b"AUTH PLAIN", 9)
    with_each("pop3", b"AUTH plain", 5)
    with_each("smtp", b"AUTH cram-md5", 12)
    with_each("pop3", b"AUTH PLAIN Zm9v", 14)
    long_line("smtp", b"AUTH PLAIN ", 507)
    long_line("smtp", b"AUTH PLAIN ", 511)
    long_line("smtp", b"NOOP ", 510)
    long_line("smtp", b"NOOP ", 511)
    long_line("smtp", b"MAILX ", 511)
    long_line("pop3", b"AUTH PLAIN ", 251)
    long_line("pop3", b"AUTH PLAIN ", 255)
    long_line("pop3", b"NOOP ", 253)
    long_line("pop3", b"NOOP ", 254)
    long_line("pop3", b"MAIL FROM:<", 254)


def mail_cases():
    each_line(["smtp"], b"MAIL FROM:<e=mc2@example.com> AUTH=e+3Dmc2@example.com|MAIL FROM:<john+@example.org> AUTH=<>|MAIL FROM:<alice@example.com> SUBMITTER=alice@example.com|MAIL FROM:<alice@example.com> SUBMITTER=bob@almamater.edu.example")
    each_line(["smtp"], b"MAIL FROM:<alice@example.com> SUBMITTER=alice@mobile.net.example|MAIL FROM:<alice@example.com> SUBMITTER=guest.services@email.hotel.com.example|MAIL FROM:<> SUBMITTER=mailer-daemon@almamater.edu.example")
    each_line(["smtp"], b"MAIL FROM:<>|mail from:<a>|MAIL FROM:<a b> X|MAIL FROM:<<a>|MAIL FROM:<\xff\t\">|MAIL FROM:<a>b>|MAIL FROM:<a|MAIL FROM:a>|MAIL FROM:|MAIL FROM: <a>|MAIL  FROM:<a>|MAIL FROM <a>|MAIL|MAIL |MAIL TO:<a>")
    with_each("smtp", b"MAIL FROM:<a>", 11)
    each_line(["smtp"], b"MAIL FROM:<a> SIZE=10 BODY=8BITMIME|MAIL FROM:<a> X|MAIL FROM:<a> X X|MAIL FROM:<a> 8-X-=+3d|MAIL FROM:<a>  X|MAIL FROM:<a> X |MAIL FROM:<a> |MAIL FROM:<a>X|MAIL FROM:<a>\tX|MAIL FROM:<a> X  Y")
    each_line(["smtp"], b"MAIL FROM:<a> X=|MAIL FROM:<a> =X|MAIL FROM:<a> -X|MAIL FROM:<a> X_Y|MAIL FROM:<a> X=a=b|MAIL FROM:<a> X==|MAIL FROM:<a> X=\x7f|MAIL FROM:<a> X=\x80|MAIL FROM:<a> X=\t")
    with_each("smtp", b"MAIL FROM:<a> X", 14)
    with_each("smtp", b"MAIL FROM:<a> XX", 15)
    with_each("smtp", b"MAIL FROM:<a> X=y", 16)
    each_line(["smtp"], b"MAIL FROM:<a> auth=a@b|MAIL FROM:<a> Auth=+3C+3E|MAIL FROM:<a> AUTH=+61+40+62 X|MAIL FROM:<a> Y SUBMITTER=a@b AUTH=c@d|MAIL FROM:<a> AUTH=@@@|MAIL FROM:<a> AUTH=a@@|MAIL FROM:<a> AUTH=@@a|MAIL FROM:<a> AUTH=a@b@c|MAIL FROM:<a> AUTH=a@+0D+0A|MAIL FROM:<a> AUTHX=a AUTH-")
    with_each("smtp", b"MAIL FROM:<a> AUTH=x@y", 20)
    each_line(["smtp"], b"MAIL FROM:<a> AUTH|MAIL FROM:<a> AUTH=|MAIL FROM:<a> AUTH=a|MAIL FROM:<a> AUTH=@|MAIL FROM:<a> AUTH=@@|MAIL FROM:<a> AUTH=@a|MAIL FROM:<a> AUTH=a@|MAIL FROM:<a> AUTH=<>x|MAIL FROM:<a> AUTH=<|MAIL FROM:<a> AUTH=a+40+|MAIL FROM:<a> AUTH=a@b+3d")
    each_line(["smtp"], b"MAIL FROM:<a> AUTH=a@b AUTH=a@b|MAIL FROM:<a> AUTH=<> auth=<>|MAIL FROM:<a> SUBMITTER=a@b X submitter=a@b|MAIL FROM:<a> SUBMITTER|MAIL FROM:<a> SUBMITTER=<>|MAIL FROM:<a> SUBMITTER=a|MAIL FROM:<a> AUTH=a@b SUBMITTER=+40a")
    long_line("smtp", b"MAIL FROM:<", 510, b">")
    long_line("smtp", b"MAIL FROM:<", 1010, b">")
    long_line("smtp", b"MAIL FROM:<", 1011, b">")
    long_line("pop3", b"MAIL FROM:<", 253, b">")
    long_line("pop3", b"MAIL FROM:<", 254, b">")


def response_cases():
    each_response("smtp", b"dGVzdAB0ZXN0ADEyMzQ=|cmpzMyBlYzNhNTlmZWQzOTVhYmExZWM2MzY3YzRmNGI0MWFjMA==||QUIT|RSET|AUTH|Zm9v|Zg==")
    each_response("pop3", b"dGVzdAB0ZXN0AHRlc3Q=||QUIT|*|=")
    each_response("smtp", b"*|**|* | *|=|Zh==|=AAA|Zm9v Zm9v|AUTH PLAIN|EHLO a|MAIL FROM:<>|Zm9v\x00|Zm9v\r|Zm9\n")
    long_response("smtp", 12284)
    long_response("smtp", 12286)
    long_response("smtp", 12287)
    long_response("pop3", 12284)
    long_response("pop3", 12286)
    long_response("pop3", 12287)
    huge("smtp")
    huge("pop3")


if __name__ == "__main__":
    sys.stdout.reconfigure(newline="\n")
    base64_cases()
    xtext_cases()
    number_cases()
    reply_cases()
    line_cases()
    mail_cases()
    response_cases()
