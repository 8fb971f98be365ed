/* What the tests share: the runner, texts, the calls with what holds of every one of them, and expectations.

   A test works on one image, which make_server makes anew. Every call is lent buffers of its own, each an allocation of the
   exact size filled with random octets. Whatever a test expects of it, of each call is checked that
     - a refused one changes neither the image nor a buffer, and every number but its refusal is 0;
     - an answer changes no octet of a buffer behind the length that it states, none of the buffers that it has nothing for, and
       gives 0 for each number that its kind has none of. */
#ifndef CHECK_H
#define CHECK_H
#include "face.h"
#include "layout.h"
#include <stdbool.h>

/* --- the runner --- */

struct test {
    const char *name;
    void (*run)(void);
};
#define TEST(function) {#function, function}
#define COUNT(array) (sizeof(array) / sizeof *(array))

/* Prints `ok NAME` or `FAIL NAME: why` for each, and gives main's status. */
int run_tests(const char *program, const struct test *tests, size_t count);
#define RUN_TESTS(program, tests) run_tests(program, tests, COUNT(tests))

/* The place of what is checked next, for its message. */
void check_at(const char *file, int line);
#define AT check_at(__FILE__, __LINE__)

void fail(const char *format, ...) __attribute__((format(printf, 1, 2)));
void expect_number(const char *what, uint64_t got, uint64_t want);
#define EXPECT_NUMBER(got, want) (AT, expect_number(#got, got, want))
#define EXPECT(condition) (AT, (condition) ? (void)0 : fail("expected: %s", #condition))

/* --- random numbers, the same in each run after the same seed --- */

void seed(uint64_t start);
uint64_t draw_number(void);
size_t draw(size_t limit);

/* --- texts --- */

struct text {
    const uint8_t *octets;
    size_t size;
};
#define T(literal) ((struct text){(const uint8_t *)(literal), sizeof(literal) - 1})
#define NO_OCTETS ((struct text){NULL, 0})

/* These last until the test's end. */
struct text repeated(struct text text, size_t count);
struct text joined(struct text one, struct text other);
struct text first_of(struct text text, size_t size);
struct text of_string(const char *string);
bool same_text(struct text one, struct text other);

/* --- the calls --- */

/* What each call is lent. A test may alter the image's octets, lend some other number of them (resize_image), and lend
   buffers of other sizes. */
struct lent {
    uint8_t *image;
    size_t image_octets;
    size_t reply_octets;
    size_t answer_octets;
    size_t name_octets;
};
extern struct lent lent;
void resize_image(size_t octets);

uint64_t call_make(uint64_t connection, uint64_t ticket);
uint64_t call_add(struct text name, uint64_t client_first, uint64_t needs_protection);
struct umbrelnic_opened call_open(uint64_t profile, uint64_t is_protected);
struct umbrelnic_line_answer call_line(uint64_t connection, struct text line);
struct umbrelnic_said call_verdict(uint64_t ticket, uint64_t verdict, struct text data);
uint64_t call_mail_ended(uint64_t connection);
struct umbrelnic_identity call_who(uint64_t connection);
uint64_t call_close(uint64_t connection);

/* The octets that the last call wrote: a reply, an answer or an address, a name. */
extern struct text heard;
extern struct text handed;
extern struct text named;

/* --- expectations, each of one call --- */

void expect_made(uint64_t connection, uint64_t ticket);
void expect_added(struct text name, uint64_t client_first, uint64_t needs_protection);
void expect_opened(uint64_t profile, uint64_t is_protected, uint64_t connection);
void expect_forward(uint64_t connection, struct text line);
void expect_mail(uint64_t connection, struct text line, uint64_t identity);
void expect_address(uint64_t connection, struct text line, struct text address);
void expect_query(uint64_t connection, struct text line, uint64_t ticket, struct text decoded);
void expect_start(uint64_t connection, struct text line, uint64_t ticket);
void expect_reply(uint64_t connection, struct text line, const char *text);
void expect_said(uint64_t ticket, uint64_t verdict, struct text data, const char *text);
void expect_name(uint64_t connection, struct text name);
void expect_nobody(uint64_t connection);
#define EXPECT_MADE(...) (AT, expect_made(__VA_ARGS__))
#define EXPECT_ADDED(...) (AT, expect_added(__VA_ARGS__))
#define EXPECT_OPENED(...) (AT, expect_opened(__VA_ARGS__))
#define EXPECT_FORWARD(...) (AT, expect_forward(__VA_ARGS__))
#define EXPECT_MAIL(...) (AT, expect_mail(__VA_ARGS__))
#define EXPECT_ADDRESS(...) (AT, expect_address(__VA_ARGS__))
#define EXPECT_QUERY(...) (AT, expect_query(__VA_ARGS__))
#define EXPECT_START(...) (AT, expect_start(__VA_ARGS__))
/* Replies are written here without their CRLF. */
#define EXPECT_REPLY(...) (AT, expect_reply(__VA_ARGS__))
#define EXPECT_SAID(...) (AT, expect_said(__VA_ARGS__))
#define EXPECT_NAME(...) (AT, expect_name(__VA_ARGS__))
#define EXPECT_NOBODY(...) (AT, expect_nobody(__VA_ARGS__))
#define EXPECT_DONE(refusal) (AT, expect_number(#refusal, refusal, 0))
#define EXPECT_REFUSED(got, refusal) (AT, expect_number(#got, got, refusal))

/* --- servers --- */

/* Numbers from 1, PLAIN client-first and protected, CRAM-MD5 server-first, as in document 01's example. */
void make_server(void);

/* Protected connections; the SMTP one is greeted. Each gives its number. */
uint64_t open_smtp(void);
uint64_t open_pop3(void);

/* Signs a connection in, with PLAIN. */
void sign_in(uint64_t connection, struct text name);

uint64_t next_ticket(void);

/* The slot that a connection is in, by its index and as octets; UMBRELNIC_MOST_CONNECTIONS and NULL where it is in none. */
size_t slot_index(uint64_t connection);
uint8_t *slot_at(size_t index);
uint8_t *slot_of(uint64_t connection);

/* What a client hears, by profile, without CRLF. */
enum reply {
    SUCCEEDED,
    TRANSITION,
    TEMPORARY,
    ANSWER_TOO_LONG,
    NOT_UNDERSTOOD,
    SYNTAX,
    CANCELLED,
    NO_INITIAL,
    WRONG_MOMENT,
    UNAVAILABLE,
    WEAK,
    REJECTED,
    EMPTY_CHALLENGE,
    REPLIES,
};
extern const char *const hears[2][REPLIES];
#endif
