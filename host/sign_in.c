/* A whole sign-in: what a host does with the calls, worked through docs/C-API.md. The client's lines and the password service are made up here;
   a host has sockets for both. Prints the dialogue. */
#include "umbrelnic.h"

#include <stdio.h>
#include <stdlib.h>
#include <string.h>

/* What a host keeps: an image for all its connections, and three buffers that any call may use. */
static uint8_t image[UMBRELNIC_IMAGE_OCTETS];
static uint8_t reply[UMBRELNIC_REPLY_OCTETS];
static uint8_t answer[UMBRELNIC_ANSWER_OCTETS];
static uint8_t name[UMBRELNIC_NAME_OCTETS];

/* A refusal where there should be none. */
static void must(uint64_t refusal, const char *call)
{
    if (refusal != 0) {
        fprintf(stderr, "%s was refused with %llu\n", call, (unsigned long long)refusal);
        exit(1);
    }
}

/* A desk that offers PLAIN, on protected connections, and CRAM-MD5 on all. Numbers begin at 1. */
static void start(void)
{
    must(umbrelnic_make(image, sizeof image, 1, 1), "make");
    must(umbrelnic_add(image, sizeof image, (const uint8_t *)"PLAIN", 5, 1, 1), "add");
    must(umbrelnic_add(image, sizeof image, (const uint8_t *)"CRAM-MD5", 8, 0, 0), "add");
}

/* Octets as text: only what a client may see is printed here. */
static void print(const char *who, const uint8_t *octets, uint64_t length)
{
    printf("%s: ", who);
    fwrite(octets, 1, length, stdout);
    putchar('\n');
}

/* The password service: it knows anna, whose PLAIN message is NUL, name, NUL, password. */
static uint64_t judge(const uint8_t *response, uint64_t length, const uint8_t **data, size_t *data_octets)
{
    static const uint8_t right[] = {0, 'a', 'n', 'n', 'a', 0, 's', 'e', 's', 'a', 'm', 'e'};

    *data = NULL;
    *data_octets = 0;
    if (length != sizeof right || memcmp(response, right, sizeof right) != 0)
        return UMBRELNIC_REJECTED;
    *data = (const uint8_t *)"anna";
    *data_octets = 4;
    return UMBRELNIC_SUCCESS;
}

/* A query: asks the service, hands its verdict in and sends the client what comes back. A host would go on with other connections meanwhile. */
static void ask(struct umbrelnic_line_answer query)
{
    const uint8_t *data;
    size_t data_octets;
    uint64_t verdict = judge(answer, query.length, &data, &data_octets);
    struct umbrelnic_said said;

    /* the response is a password: it goes no further */
    memset(answer, 0, query.length);
    said = umbrelnic_verdict(image, sizeof image, query.ticket, verdict, data, data_octets, reply, sizeof reply, answer, sizeof answer);
    must(said.refusal, "verdict");
    print("server", reply, said.length - 2);
}

/* A line that is handed on to the mail server, with what to relay. */
static void forward(struct umbrelnic_line_answer line)
{
    switch (line.identity) {
    case UMBRELNIC_NO_MAIL:
        printf("(handed on)\n");
        break;
    case UMBRELNIC_NULL:
        printf("(handed on, to be relayed with AUTH=<>)\n");
        break;
    case UMBRELNIC_ABSENT:
        printf("(handed on, to be relayed with no AUTH)\n");
        break;
    case UMBRELNIC_ADDRESS:
        print("(handed on, to be relayed for)", answer, line.length);
        break;
    }
}

/* A client's line, without its CRLF. */
static void hear(uint64_t connection, const char *line)
{
    struct umbrelnic_line_answer a;

    print("client", (const uint8_t *)line, strlen(line));
    a = umbrelnic_line(image, sizeof image, connection, (const uint8_t *)line, strlen(line), reply, sizeof reply, answer, sizeof answer);
    must(a.refusal, "line");
    if (a.kind == UMBRELNIC_FORWARD)
        forward(a);
    else if (a.kind == UMBRELNIC_QUERY)
        ask(a);
    else
        print("server", reply, a.length - 2);
}

static void tell(uint64_t connection)
{
    struct umbrelnic_identity who = umbrelnic_who(image, sizeof image, connection, name, sizeof name);

    must(who.refusal, "who");
    if (who.signed_in)
        print("(signed in)", name, who.length);
    else
        printf("(nobody is signed in)\n");
}

int main(void)
{
    struct umbrelnic_opened opened;

    start();
    opened = umbrelnic_open(image, sizeof image, UMBRELNIC_SMTP, 1);
    must(opened.refusal, "open");
    hear(opened.connection, "EHLO mill-lane.example");
    hear(opened.connection, "AUTH PLAIN AGFubmEAb3Blbg==");
    tell(opened.connection);
    hear(opened.connection, "AUTH PLAIN");
    hear(opened.connection, "AGFubmEAc2VzYW1l");
    tell(opened.connection);
    hear(opened.connection, "MAIL FROM:<anna@mill-lane.example> AUTH=anna@mill-lane.example");
    must(umbrelnic_mail_ended(image, sizeof image, opened.connection), "mail ended");
    must(umbrelnic_close(image, sizeof image, opened.connection), "close");
    return 0;
}
