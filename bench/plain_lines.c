/* What a line says (document 01), in one pass. A line that holds NUL, CR or LF anywhere is not understood, whatever else is
   wrong with it: a reading that fails looks for these in what it has not read, one that succeeds has met them all. */
#include "plain.h"

enum { SMTP_COMMAND = 510, SMTP_MAIL = 1010, POP3_COMMAND = 253, RESPONSE = 12286, NAME = 20 };

/* Where an octet may stand: in a keyword, at its first place, in a value, in xtext for itself, in a mechanism's name in a line. */
enum { K = 1, F = 2, V = 4, X = 8, M = 16 };

#define LETTER (K | F | V | X | M)
#define MARK (V | X)
#define HYPHEN (K | V | X | M)
#define LOW (V | X | M)

static const uint8_t class[256] = {
    ['!'] = MARK, ['"'] = MARK, ['#'] = MARK, ['$'] = MARK, ['%'] = MARK, ['&'] = MARK, ['\''] = MARK, ['('] = MARK,
    [')'] = MARK, ['*'] = MARK, ['+'] = V, [','] = MARK, ['-'] = HYPHEN, ['.'] = MARK, ['/'] = MARK,
    ['0'] = LETTER, ['1'] = LETTER, ['2'] = LETTER, ['3'] = LETTER, ['4'] = LETTER, ['5'] = LETTER,
    ['6'] = LETTER, ['7'] = LETTER, ['8'] = LETTER, ['9'] = LETTER,
    [':'] = MARK, [';'] = MARK, ['<'] = MARK, ['>'] = MARK, ['?'] = MARK, ['@'] = MARK,
    ['A'] = LETTER, ['B'] = LETTER, ['C'] = LETTER, ['D'] = LETTER, ['E'] = LETTER, ['F'] = LETTER,
    ['G'] = LETTER, ['H'] = LETTER, ['I'] = LETTER, ['J'] = LETTER, ['K'] = LETTER, ['L'] = LETTER,
    ['M'] = LETTER, ['N'] = LETTER, ['O'] = LETTER, ['P'] = LETTER, ['Q'] = LETTER, ['R'] = LETTER,
    ['S'] = LETTER, ['T'] = LETTER, ['U'] = LETTER, ['V'] = LETTER, ['W'] = LETTER, ['X'] = LETTER,
    ['Y'] = LETTER, ['Z'] = LETTER,
    ['['] = MARK, ['\\'] = MARK, [']'] = MARK, ['^'] = MARK, ['_'] = LOW, ['`'] = MARK,
    ['a'] = LETTER, ['b'] = LETTER, ['c'] = LETTER, ['d'] = LETTER, ['e'] = LETTER, ['f'] = LETTER,
    ['g'] = LETTER, ['h'] = LETTER, ['i'] = LETTER, ['j'] = LETTER, ['k'] = LETTER, ['l'] = LETTER,
    ['m'] = LETTER, ['n'] = LETTER, ['o'] = LETTER, ['p'] = LETTER, ['q'] = LETTER, ['r'] = LETTER,
    ['s'] = LETTER, ['t'] = LETTER, ['u'] = LETTER, ['v'] = LETTER, ['w'] = LETTER, ['x'] = LETTER,
    ['y'] = LETTER, ['z'] = LETTER,
    ['{'] = MARK, ['|'] = MARK, ['}'] = MARK, ['~'] = MARK,
};

static struct reading bare(uint64_t kind) {
    return (struct reading){kind, 0, 0, 0};
}

/* "holds NUL, CR, LF" */
static bool is_forbidden(uint8_t x) {
    return x == 0 || x == '\r' || x == '\n';
}

/* A reading that ended at index i: the kind, if nothing forbidden stands from there on. */
static struct reading ended(const uint8_t *line, size_t size, size_t i, uint64_t kind) {
    for (; i < size; i++) {
        if (is_forbidden(line[i])) {
            return bare(NOT_UNDERSTOOD);
        }
    }
    return bare(kind);
}

/* --- words, case ignored --- */

/* An octet without its bit 5 is a capital only if it was that letter, small or capital. So four letters are one number. */
#define FOLD 0xdfdfdfdfu
#define WORD(a, b, c, d) ((uint32_t)(a) << 24 | (uint32_t)(b) << 16 | (uint32_t)(c) << 8 | (uint32_t)(d))

static uint32_t word_at(const uint8_t *text) {
    return WORD(text[0], text[1], text[2], text[3]) & FOLD;
}

/* "MAIL FROM:<", of which MAIL and the space are known */
static bool opens(const uint8_t *line, size_t size) {
    return size >= 11 && word_at(line + 5) == WORD('F', 'R', 'O', 'M') && line[9] == ':' && line[10] == '<';
}

static bool is_auth(const uint8_t *word, size_t size) {
    return size == 4 && word_at(word) == WORD('A', 'U', 'T', 'H');
}

static bool is_submitter(const uint8_t *word, size_t size) {
    return size == 9 && word_at(word) == WORD('S', 'U', 'B', 'M') && word_at(word + 4) == WORD('I', 'T', 'T', 'E') && (word[8] & 0xdf) == 'R';
}

/* --- MAIL --- */

static int digit(uint8_t x) {
    if ('0' <= x && x <= '9') {
        return x - '0';
    }
    return 'A' <= x && x <= 'F' ? x - 'A' + 10 : -1;
}

/* A text in xtext: where it ends, how many octets it stands for, whether these are "<>", whether they are an address. */
struct decoded {
    size_t end;
    size_t length;
    bool null;
    bool address;
};

/* Reads xtext up to the first octet that cannot stand in it. "An octet before and after some "@"": the first "@" that is not
   the first octet is not the last one either. */
static struct decoded read_xtext(const uint8_t *line, size_t size, size_t i) {
    size_t n = 0;
    size_t at = 0;
    uint32_t last = 0;
    while (i < size) {
        uint8_t x = line[i];
        if (class[x] & X) {
            i += 1;
        } else {
            if (x != '+' || size - i < 3 || digit(line[i + 1]) < 0 || digit(line[i + 2]) < 0) {
                break;
            }
            x = (uint8_t)(digit(line[i + 1]) << 4 | digit(line[i + 2]));
            i += 3;
        }
        if (x == '@' && at == 0) {
            at = n;
        }
        last = last << 8 | x;
        n += 1;
    }
    return (struct decoded){i, n, n == 2 && last == WORD(0, 0, '<', '>'), at != 0 && at + 1 < n};
}

/* A MAIL line, read up to index i. */
struct mail {
    size_t i;
    struct reading found;
    bool submitter;
};

/* The value of AUTH or of SUBMITTER. */
static bool read_identity(const uint8_t *line, size_t size, bool auth, struct mail *mail) {
    size_t from = mail->i;
    struct decoded value = read_xtext(line, size, from);
    mail->i = value.end;
    if (!auth) {
        bool good = !mail->submitter && value.address;
        mail->submitter = true;
        return good;
    }
    if (mail->found.kind != MAIL_ABSENT) {
        return false;
    }
    mail->found = value.null ? bare(MAIL_NULL) : (struct reading){MAIL_ADDRESS, value.end, from, value.length};
    return value.null || value.address;
}

/* A space and a parameter, up to the first octet that cannot stand in it. */
static bool read_parameter(const uint8_t *line, size_t size, struct mail *mail) {
    size_t i = mail->i + 1;
    const uint8_t *word = line + i;
    if (line[mail->i] != ' ' || i == size || !(class[line[i]] & F)) {
        return false;
    }
    do {
        i += 1;
    } while (i < size && class[line[i]] & K);
    size_t count = (size_t)(line + i - word);
    bool auth = is_auth(word, count);
    bool other = !auth && !is_submitter(word, count);
    mail->i = i;
    if (i == size || line[i] != '=') {
        return other;
    }
    mail->i = i + 1;
    if (!other) {
        return read_identity(line, size, auth, mail);
    }
    do {
        i += 1;
    } while (i < size && class[line[i]] & V);
    size_t from = mail->i;
    mail->i = i;
    return i > from;
}

static struct reading read_mail(const uint8_t *line, size_t size) {
    if (!opens(line, size)) {
        return ended(line, size, 4, MAIL_MALFORMED);
    }
    struct mail mail = {11, {MAIL_ABSENT, 0, 0, 0}, false};
    while (mail.i < size && line[mail.i] != '>') {
        if (is_forbidden(line[mail.i])) {
            return bare(NOT_UNDERSTOOD);
        }
        mail.i += 1;
    }
    if (mail.i == size) {
        return bare(MAIL_MALFORMED);
    }
    mail.i += 1;
    while (mail.i < size) {
        if (!read_parameter(line, size, &mail)) {
            return ended(line, size, mail.i, MAIL_MALFORMED);
        }
    }
    return mail.found;
}

/* --- AUTH --- */

static struct reading read_auth(const uint8_t *line, size_t size) {
    size_t i = 5;
    while (i < size && class[line[i]] & M) {
        i += 1;
    }
    if (size < 6 || i == 5 || i > 5 + NAME) {
        return ended(line, size, 4, AUTH_MALFORMED);
    }
    if (i == size) {
        return (struct reading){AUTH_ALONE, i, 0, 0};
    }
    size_t text = i + 1;
    if (line[i] != ' ' || text == size) {
        return ended(line, size, i, AUTH_MALFORMED);
    }
    if (size - text == 1 && line[text] == '=') {
        return (struct reading){AUTH_INITIAL, i, text + 1, 0};
    }
    uint64_t length = plain_base64_measure(line + text, size - text);
    if (length == MALFORMED) {
        return ended(line, size, text, AUTH_MALFORMED);
    }
    return (struct reading){AUTH_INITIAL, i, text, length};
}

/* --- commands and responses --- */

/* "EHLO and HELO need a space and at least one octet more" */
static struct reading argued(const uint8_t *line, size_t size, uint64_t kind) {
    return ended(line, size, 4, size > 5 ? kind : SYNTAX);
}

/* "RSET and QUIT take nothing after the verb" */
static struct reading alone(const uint8_t *line, size_t size, uint64_t kind) {
    return ended(line, size, 4, size == 4 ? kind : SYNTAX);
}

/* "Verbs end at the first space or line end", and all with rules have four letters. */
static uint32_t verb_of(const uint8_t *line, size_t size) {
    return size >= 4 && (size == 4 || line[4] == ' ') ? word_at(line) : 0;
}

static struct reading smtp(const uint8_t *line, size_t size) {
    uint32_t verb = verb_of(line, size);
    if (size > (verb == WORD('M', 'A', 'I', 'L') ? SMTP_MAIL : SMTP_COMMAND)) {
        return bare(NOT_UNDERSTOOD);
    }
    switch (verb) {
    case WORD('E', 'H', 'L', 'O'):
        return argued(line, size, EHLO);
    case WORD('H', 'E', 'L', 'O'):
        return argued(line, size, HELO);
    case WORD('R', 'S', 'E', 'T'):
        return alone(line, size, RSET);
    case WORD('Q', 'U', 'I', 'T'):
        return alone(line, size, QUIT);
    case WORD('M', 'A', 'I', 'L'):
        return read_mail(line, size);
    case WORD('A', 'U', 'T', 'H'):
        return read_auth(line, size);
    default:
        return ended(line, size, 0, OTHER);
    }
}

static struct reading pop3(const uint8_t *line, size_t size) {
    if (size > POP3_COMMAND) {
        return bare(NOT_UNDERSTOOD);
    }
    switch (verb_of(line, size)) {
    case WORD('U', 'S', 'E', 'R'):
    case WORD('P', 'A', 'S', 'S'):
    case WORD('A', 'P', 'O', 'P'):
        return ended(line, size, 4, BARRED);
    case WORD('A', 'U', 'T', 'H'):
        return read_auth(line, size);
    default:
        return ended(line, size, 0, OTHER);
    }
}

struct reading plain_command(uint64_t profile, const uint8_t *line, size_t size) {
    if (profile == SMTP) {
        return smtp(line, size);
    }
    return profile == POP3 ? pop3(line, size) : bare(UNLISTED);
}

struct reading plain_response(uint64_t profile, const uint8_t *line, size_t size) {
    if (profile != SMTP && profile != POP3) {
        return bare(UNLISTED);
    }
    if (size > RESPONSE) {
        return bare(RESPONSE_TOO_LONG);
    }
    if (size == 1 && line[0] == '*') {
        return bare(RESPONSE_CANCELLED);
    }
    uint64_t length = plain_base64_measure(line, size);
    if (length == MALFORMED) {
        return bare(RESPONSE_MALFORMED);
    }
    return (struct reading){RESPONSE_LENGTH, 0, 0, length};
}
