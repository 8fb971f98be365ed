/* The proved base64 beside plain C and the base64 of other libraries. run.sh finds which of these are installed, and
   compiles them in with -DHAVE_OPENSSL, -DHAVE_GSASL, -DHAVE_GLIB. */
#include "forms.h"
#include "plain.h"
#include <string.h>
#ifdef HAVE_OPENSSL
#include <openssl/evp.h>
#endif
#ifdef HAVE_GSASL
#include <gsasl.h>
#endif
#ifdef HAVE_GLIB
#include <glib.h>
#endif

uint64_t bench_base64_measure(const uint8_t *text, size_t size);
uint64_t bench_base64_decode(const uint8_t *text, size_t size, uint8_t *out, size_t room);
uint64_t bench_base64_encode(const uint8_t *bytes, size_t size, uint8_t *out, size_t room, size_t at);

/* --- the contenders, in the shape of a row --- */

#ifdef HAVE_OPENSSL
static uint64_t decode_by_openssl(const uint8_t *in, size_t size, uint8_t *out, size_t room) {
    (void)room;
    return (uint64_t)EVP_DecodeBlock(out, in, (int)size);
}

static uint64_t encode_by_openssl(const uint8_t *in, size_t size, uint8_t *out, size_t room) {
    (void)room;
    return (uint64_t)EVP_EncodeBlock(out, in, (int)size);
}
#endif

#ifdef HAVE_GSASL
/* GNU SASL allocates; to leave the octets where the others do, a caller copies and frees. */
static uint64_t take(int status, char *octets, size_t count, uint8_t *out) {
    if (status != GSASL_OK) {
        return MALFORMED;
    }
    memcpy(out, octets, count);
    gsasl_free(octets);
    return count;
}

static uint64_t decode_by_gsasl(const uint8_t *in, size_t size, uint8_t *out, size_t room) {
    char *octets = NULL;
    size_t count = 0;
    (void)room;
    int status = gsasl_base64_from((const char *)in, size, &octets, &count);
    return take(status, octets, count, out);
}

static uint64_t encode_by_gsasl(const uint8_t *in, size_t size, uint8_t *out, size_t room) {
    char *octets = NULL;
    size_t count = 0;
    (void)room;
    int status = gsasl_base64_to((const char *)in, size, &octets, &count);
    return take(status, octets, count, out);
}
#endif

#ifdef HAVE_GLIB
static uint64_t decode_by_glib(const uint8_t *in, size_t size, uint8_t *out, size_t room) {
    gint state = 0;
    guint save = 0;
    (void)room;
    return g_base64_decode_step((const gchar *)in, size, out, &state, &save);
}

static uint64_t encode_by_glib(const uint8_t *in, size_t size, uint8_t *out, size_t room) {
    gint state = 0;
    gint save = 0;
    (void)room;
    gsize count = g_base64_encode_step(in, size, FALSE, (gchar *)out, &state, &save);
    return count + g_base64_encode_close(FALSE, (gchar *)out + count, &state, &save);
}
#endif

static const struct row decode_rows[] = {
    {"proved", bench_base64_decode},
    {"plain C", plain_base64_decode},
    {"plain C, one pass", plain_base64_decode_one_pass},
#ifdef HAVE_OPENSSL
    {"OpenSSL", decode_by_openssl},
#endif
#ifdef HAVE_GSASL
    {"GNU SASL", decode_by_gsasl},
#endif
#ifdef HAVE_GLIB
    {"glib", decode_by_glib},
#endif
};

static const struct row encode_rows[] = {
    {"proved", encode_by_proved},
    {"plain C", encode_by_plain},
#ifdef HAVE_OPENSSL
    {"OpenSSL", encode_by_openssl},
#endif
#ifdef HAVE_GSASL
    {"GNU SASL", encode_by_gsasl},
#endif
#ifdef HAVE_GLIB
    {"glib", encode_by_glib},
#endif
};

/* --- the inputs --- */

enum { MOST = 20000 };

static void draw_bytes(size_t size, uint8_t *bytes) {
    for (size_t i = 0; i < size; i++) {
        bytes[i] = (uint8_t)draw(256);
    }
}

/* The octets of a text of so many letters, the last pad of them "=". */
static size_t make_bytes(size_t letters, size_t pad, uint8_t *bytes) {
    size_t size = letters / 4 * 3 - pad;
    draw_bytes(size, bytes);
    return size;
}

static size_t make_text(size_t letters, size_t pad, uint8_t *text) {
    uint8_t bytes[MOST];
    size_t size = make_bytes(letters, pad, bytes);
    plain_base64_encode(bytes, size, text, letters, 0);
    return letters;
}

/* An octet that is no letter, so many places before the end or, for MIDDLE, in the middle. */
enum { LAST = 1, MIDDLE = 0 };

static size_t make_damaged(size_t letters, size_t place, uint8_t *text) {
    make_text(letters, 0, text);
    text[place == MIDDLE ? letters / 2 : letters - place] = '*';
    return letters;
}

static const struct table tables[] = {
    {"measure", "valid", measure_rows, 2, make_text, 0},
    {"measure", "padded", measure_rows, 2, make_text, 1},
    {"measure", "damaged last", measure_rows, 2, make_damaged, LAST},
    {"measure", "damaged middle", measure_rows, 2, make_damaged, MIDDLE},
    {"decode", "valid", decode_rows, COUNT(decode_rows), make_text, 0},
    {"decode", "padded", decode_rows, COUNT(decode_rows), make_text, 1},
    {"decode", "damaged last", decode_rows, COUNT(decode_rows), make_damaged, LAST},
    {"decode", "damaged middle", decode_rows, COUNT(decode_rows), make_damaged, MIDDLE},
    {"encode", "octets", encode_rows, COUNT(encode_rows), make_bytes, 0},
};

/* A size that is no multiple of four has no valid text: there it is a text that is cut off. */
static void some_text(size_t size, uint8_t *text) {
    uint8_t whole[MOST];
    size_t letters = (size + 3) / 4 * 4;
    make_text(letters, letters == 0 ? 0 : draw(3), whole);
    memcpy(text, whole, size);
}

static const struct form base64 = {
    "base64",
    {bench_base64_measure, bench_base64_decode, bench_base64_encode},
    {plain_base64_measure, plain_base64_decode, plain_base64_encode},
    tables,
    COUNT(tables),
    some_text,
    draw_bytes,
    "==AQgw+/",
};

int main(int argc, char **argv) {
    return form_main(&base64, argc, argv);
}
