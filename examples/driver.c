/* A driver's first steps: builds a frame, reads it back, asks for its route, forwards it server by server until it ends, and reads a frame
 * that is refused.
 *
 * The hall is n = 4, k = 1, b = 0. The route from 0 to 19 crosses the link between port 1 of server 3 and port 1 of server 16. This link
 * is a fibre with one broken strand: port 1 of server 3 is up, and port 1 of server 16 is silent. A link is usable only where both of its
 * ports are up, so the frame goes round by a proxy. Valid C11 and C++17. */
#include "tbexlum.h"

#include <inttypes.h>
#include <stdio.h>
#include <stdlib.h>
#include <string.h>

/* The hall: n servers on a switch, top level k, local level b. */
#define N 4u
#define K 1u
#define B 0u
/* How many DCells of level 1 are fitted. This hall is full: with k below 2 that is 1, with k of 2 or 3 it would be t(k) / t(1). */
#define COUNT 1u
/* t(k) servers in the hall, t(b) in a local cell, k + 1 ports on a server. */
#define SERVERS 20u
#define CELL_SERVERS 4u
#define PORTS (K + 1u)
/* The codes of the hall table. */
#define HALL_CODES (SERVERS * PORTS)
/* The codes of the table that a step is lent: those of the server's own cell, and one far code for each server of the cell and each level
 * above b. */
#define STEP_CODES (CELL_SERVERS * PORTS + CELL_SERVERS * (K - B))

/* The code of a port that is silent past its timeout. */
#define PORT_SILENT 3u

/* The longest payload that this driver carries, and the frame that holds it. */
#define MOST_PAYLOAD 1500u
#define MOST_FRAME (TBEXLUM_HEADER_WITH_PROXY_BYTES + MOST_PAYLOAD)

/* The most servers that a packet passes: its TTL is a byte, and each link lowers it. */
#define MOST_PASSED 256u

/* A frame as it lies in the driver's memory. */
struct frame {
    uint8_t bytes[MOST_FRAME];
    size_t length;
};

/* What a frame's header says. */
struct header {
    uint32_t bytes, protocol, payload_length, identification, retry, ttl, source, destination, has_proxy, proxy;
};

/* What a step answers. */
struct step {
    uint32_t ending, next, dst, has_proxy, proxy, retry, ttl, reroutes;
};

/* Ends the program where a call refused. */
static void need(const char *call, uint32_t refusal)
{
    if (refusal != TBEXLUM_ANSWERED) {
        printf("%s refused: %" PRIu32 ", %s\n", call, refusal, tbexlum_refusal_text(refusal));
        exit(EXIT_FAILURE);
    }
}

/* Builds the frame that says these fields, with this payload behind its header. The payload must not lie in the frame. */
static void build(struct frame *frame, const struct header *says, const uint8_t *payload)
{
    /* A header is 20 or 24 bytes long: the payload moves when a proxy is set or cleared. */
    size_t start = says->has_proxy != 0 ? TBEXLUM_HEADER_WITH_PROXY_BYTES : TBEXLUM_HEADER_BYTES;
    if (says->payload_length > MOST_PAYLOAD) {
        printf("payload too long: %" PRIu32 "\n", says->payload_length);
        exit(EXIT_FAILURE);
    }
    need("tbexlum_write_header",
         tbexlum_write_header((uint8_t)says->protocol, (uint16_t)says->payload_length, says->identification, (uint8_t)says->retry,
                              (uint8_t)says->ttl, says->source, says->destination, says->has_proxy, says->proxy, frame->bytes,
                              sizeof frame->bytes));
    memcpy(frame->bytes + start, payload, says->payload_length);
    frame->length = start + says->payload_length;
}

/* Reads the header of a frame. */
static struct header read_header(const struct frame *frame)
{
    uint8_t room[TBEXLUM_READ_ROOM];
    struct header says;
    need("tbexlum_read_header", tbexlum_read_header(frame->bytes, frame->length, room, sizeof room));
    says.bytes = tbexlum_word_at(room, TBEXLUM_READ_HEADER_BYTES_AT);
    says.protocol = tbexlum_word_at(room, TBEXLUM_READ_PROTOCOL_AT);
    says.payload_length = tbexlum_word_at(room, TBEXLUM_READ_PAYLOAD_LENGTH_AT);
    says.identification = tbexlum_word_at(room, TBEXLUM_READ_IDENTIFICATION_AT);
    says.retry = tbexlum_word_at(room, TBEXLUM_READ_RETRY_AT);
    says.ttl = tbexlum_word_at(room, TBEXLUM_READ_TTL_AT);
    says.source = tbexlum_word_at(room, TBEXLUM_READ_SOURCE_AT);
    says.destination = tbexlum_word_at(room, TBEXLUM_READ_DESTINATION_AT);
    says.has_proxy = tbexlum_word_at(room, TBEXLUM_READ_HAS_PROXY_AT);
    says.proxy = tbexlum_word_at(room, TBEXLUM_READ_PROXY_AT);
    return says;
}

/* Takes one step at a server, over the table that is taken for it from the hall table. */
static struct step take_step(uint32_t uid, const struct header *says, const uint8_t *hall_table)
{
    uint8_t table[TBEXLUM_STEP_TABLE_ROOM];
    uint8_t room[TBEXLUM_STEP_ROOM];
    struct step step;
    need("tbexlum_step_table", tbexlum_step_table(N, K, B, COUNT, hall_table, HALL_CODES, uid, table, sizeof table));
    /* The room may be longer than the table; the step is lent the table's bytes alone. */
    need("tbexlum_step", tbexlum_step(N, K, B, COUNT, uid, says->destination, says->has_proxy, says->proxy, (uint8_t)says->retry,
                                      (uint8_t)says->ttl, table, STEP_CODES, room, sizeof room));
    step.ending = tbexlum_word_at(room, TBEXLUM_STEP_ENDING_AT);
    step.next = tbexlum_word_at(room, TBEXLUM_STEP_NEXT_AT);
    step.dst = tbexlum_word_at(room, TBEXLUM_STEP_DST_AT);
    step.has_proxy = tbexlum_word_at(room, TBEXLUM_STEP_HAS_PROXY_AT);
    step.proxy = tbexlum_word_at(room, TBEXLUM_STEP_PROXY_AT);
    step.retry = tbexlum_word_at(room, TBEXLUM_STEP_RETRY_AT);
    step.ttl = tbexlum_word_at(room, TBEXLUM_STEP_TTL_AT);
    step.reroutes = tbexlum_word_at(room, TBEXLUM_STEP_REROUTES_AT);
    return step;
}

static void print_frame(const struct frame *frame)
{
    size_t i;
    for (i = 0; i < frame->length; i++) {
        printf("%s%02X", i != 0 && i % 2 == 0 ? " " : "", (unsigned)frame->bytes[i]);
    }
    printf("\n");
}

static void print_header(const struct header *says)
{
    printf("%" PRIu32 " bytes, protocol %" PRIu32 ", payload %" PRIu32 " bytes, identification %" PRIu32 ", retry %" PRIu32
           ", TTL %" PRIu32 ", %" PRIu32 " to %" PRIu32 "\n",
           says->bytes, says->protocol, says->payload_length, says->identification, says->retry, says->ttl, says->source,
           says->destination);
}

/* Prints why a frame is refused: the number, its text, and the place of the field at fault. */
static void print_refusal(const struct frame *frame)
{
    uint8_t room[TBEXLUM_READ_ROOM];
    uint32_t refusal = tbexlum_read_header(frame->bytes, frame->length, room, sizeof room);
    printf("%" PRIu32 ", %s, place %" PRIu32 "\n", refusal, tbexlum_refusal_text(refusal),
           tbexlum_header_place(frame->bytes, frame->length));
}

/* Prints the route from x to y. Its last uid is y, and no uid stands in it twice. */
static void print_route(uint32_t x, uint32_t y)
{
    uint8_t room[TBEXLUM_ROUTE_ROOM];
    size_t at = TBEXLUM_ROUTE_UIDS_AT;
    need("tbexlum_route", tbexlum_route(N, K, B, COUNT, x, y, room, sizeof room));
    printf("%" PRIu32, tbexlum_word_at(room, at));
    while (tbexlum_word_at(room, at) != y) {
        at += TBEXLUM_WORD;
        printf(" %" PRIu32, tbexlum_word_at(room, at));
    }
    printf("\n");
}

/* The port of a server that leads to its neighbour: the lowest level whose DCell holds both. DCell(i) is t(i) uids in a row. */
static uint32_t port_to(uint32_t uid, uint32_t neighbour)
{
    uint32_t size = N;
    uint32_t level = 0;
    while (uid / size != neighbour / size) {
        size *= size + 1;
        level++;
    }
    return level;
}

/* Forwards a frame from its source until it ends: each server reads the frame that came and sends on the packet that its step answers.
 * Prints each frame sent, then what became of the packet and the uids passed. */
static void forward(const struct frame *first, const uint8_t *hall_table)
{
    static struct frame came;
    static struct frame sent;
    uint32_t passed[MOST_PASSED];
    uint32_t links = 0;
    uint32_t reroutes = 0;
    uint32_t i;
    struct header says = read_header(first);
    struct step step;
    came = *first;
    passed[0] = says.source;
    for (;;) {
        says = read_header(&came);
        step = take_step(passed[links], &says, hall_table);
        reroutes += step.reroutes;
        if (step.ending != TBEXLUM_FORWARDED) {
            break;
        }
        says.destination = step.dst;
        says.has_proxy = step.has_proxy;
        says.proxy = step.proxy;
        says.retry = step.retry;
        says.ttl = step.ttl;
        build(&sent, &says, came.bytes + says.bytes);
        printf("at %" PRIu32 " by port %" PRIu32 " to %" PRIu32 ": ", passed[links], port_to(passed[links], step.next), step.next);
        print_frame(&sent);
        came = sent;
        links++;
        passed[links] = step.next;
    }
    printf("%" PRIu32 " to %" PRIu32 ": %s; links %" PRIu32 ", reroutes %" PRIu32 ", by", says.source, says.destination,
           tbexlum_ending_text(step.ending), links, reroutes);
    for (i = 0; i <= links; i++) {
        printf(" %" PRIu32, passed[i]);
    }
    printf("\n");
}

int main(void)
{
    static const uint8_t payload[] = {'p', 'i', 'n', 'g'};
    static struct frame frame;
    uint8_t hall_table[HALL_CODES];
    struct header says;

    /* Port i of server u is byte u * (k + 1) + i. */
    memset(hall_table, TBEXLUM_PORT_UP, sizeof hall_table);
    hall_table[16 * PORTS + 1] = PORT_SILENT; /* the other end, port 1 of server 3, is up */

    memset(&says, 0, sizeof says);
    says.protocol = 6;
    says.payload_length = sizeof payload;
    says.identification = 1;
    says.retry = 5;
    says.ttl = 15;
    says.source = 0;
    says.destination = 19;

    build(&frame, &says, payload);
    printf("frame: ");
    print_frame(&frame);
    says = read_header(&frame);
    printf("header: ");
    print_header(&says);
    printf("route: ");
    print_route(says.source, says.destination);
    forward(&frame, hall_table);

    frame.bytes[8] |= 2; /* a flag other than PF */
    printf("refused: ");
    print_refusal(&frame);
    return EXIT_SUCCESS;
}
