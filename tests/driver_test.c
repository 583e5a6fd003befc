/* Shows that the library does what tbexlum.h says: every constant, each refusal, its order and its place, each ending, halls that are not
 * full, rooms of every length, nothing read or written but what was lent, and the helpers of the header.
 *
 * What is lent lies between pages that can't be touched, first at the front of its pages and then at their back, over two paints. So a
 * byte read or written outside kills the program, and a byte written beside the answer shows. Valid C11 and C++17.
 * Usage: driver_test [SEED]. Prints a line for each test, then `N passed, M failed`; exit status 1 where one failed. The first fault of a
 * test is printed before its line.
 * INSTALLED_VERSION is the version that pkg-config tells, as a string; where it is not defined, the version is not tested. */
#ifndef _GNU_SOURCE
#define _GNU_SOURCE /* MAP_ANONYMOUS, makecontext */
#endif
#include "tbexlum.h"

#include <inttypes.h>
#include <stdio.h>
#include <stdlib.h>
#include <string.h>
#include <sys/mman.h>
#include <unistd.h>
#ifndef __SANITIZE_ADDRESS__
#include <ucontext.h>
#endif

/* The worked examples of docs/DRIVER.md, as bytes in hex: what is given, and what stands in the room afterwards. The name of a refused
 * frame says its number and its place. */
static const char worked_route[] = "00000005 00000004 00000001 00000000 00000006 00000007 0000000A 0000000B";
static const char worked_frame[] = "15060000 00000001 500F9AD6 00000000 00000013";
static const char worked_read[] = "00000014 00000006 00000000 00000001 00000005 0000000F 00000000 00000013 00000000 00000000";
static const char worked_proxy_frame[] = "16060000 00000001 410EA8D3 00000000 00000013 00000004";
static const char worked_13_at_0[] = "45060000 00000001 500F6AD6 00000000 00000013";
static const char worked_14_at_0[] = "17060000 00000001 500F98D6 00000000 00000013 00000000 00000000";
static const char worked_15_at_8[] = "15060000 00000001 520F98D6 00000000 00000013";
static const char worked_16_at_8[] = "16060000 00000001 400EA9D3 00000000 00000013 00000004";
static const char worked_9_at_0[] = "15060000 00000001 500F9AD7 00000000 00000013";
static const char worked_11_at_0[] = "15060000 00000001 500F1AD6 80000000 00000013";
static const char worked_7_at_0[] = "15060001 00000001 500F9AD5 00000000 00000013";
static const char worked_hall_table[] = "0101010101010101 0101010101010101 0101010101010101 0101010101010101 0103010101010101";
static const char worked_step_table[] = "01010101 01010101 01010103";
static const char worked_step[] = "00000000 00000004 00000013 00000001 00000004 00000004 0000000E 00000001";
static const char worked_part_table[] = "010101 010100 0101 0100";
static const char worked_part_step[] = "00000000 00000000 0000000C 00000001 00000006 00000004 0000000E 00000001";

/* Bytes that a room is tried with beyond what its call needs. */
#define BEYOND 8u
/* The longest frame: a header with a proxy and the longest payload. */
#define LONGEST_FRAME (TBEXLUM_HEADER_WITH_PROXY_BYTES + 65535u)
/* The longest hall table: 27,630,792 servers of 4 ports. */
#define LONGEST_HALL_TABLE 110523168u
/* The longest table of a step: 72 servers of 4 ports and 2 far codes. */
#define LONGEST_TABLE 432u
/* The most DCell2s and the most DCell1s of a hall: those of n = 8, k = 3. */
#define MOST_DCELL2S 5257u
#define MOST_DCELL1S 383761u
/* The table of a step of n = 4, k = 1, b = 0: 4 servers of 2 ports, and behind these 8 codes a far code for each server. */
#define SMALL_TABLE 12u
#define SMALL_FAR_AT 8u
/* A room for any answer. */
#define ANY_ROOM 512u
/* Questions of each random test; the stack is measured over twice as many. */
#ifndef RANDOM_QUESTIONS
#define RANDOM_QUESTIONS 60000u
#endif
/* Where few random questions are asked, one of so many is tried of what is otherwise tried throughout. */
#define STRIDE (RANDOM_QUESTIONS < 6000u ? 7u : 1u)
/* The greatest number. */
#define HUGE_WORD 4294967295u
/* The stack in bytes that no call may exceed, as docs/DRIVER.md says: a multiple of 16, at what was measured or a little above. */
#define STEP_STACK 1792u
#define ROUTE_STACK 512u
#define READ_STACK 112u
#define PLACE_STACK 80u
#define WRITE_STACK 192u
#define TABLE_STACK 592u
/* What the function that makes the call takes more where it is not optimized. */
#ifdef __OPTIMIZE__
#define CALLER_MORE 0u
#else
#define CALLER_MORE 96u
#endif

/* Numbers that are at an edge of some rule. */
static const uint32_t edges[] = {
    0, 1, 2, 3, 4, 5, 7, 8, 9, 15, 16, 19, 20, 255, 256, 301, 302, 1805, 1806, 65535, 65536, MOST_DCELL1S, MOST_DCELL1S + 1, 27630791u,
    27630792u, 2147483647u, 2147483648u, 2415919103u, 4026531839u, 4294967294u, HUGE_WORD,
};
#define EDGES (sizeof edges / sizeof edges[0])

/* ---- Tests: a name, and what it demands ---- */

static int is_good;
static int passed;
static int failed;

static void demand(int holds, int line)
{
    if (!holds) {
        if (is_good) {
            printf("line %d does not hold\n", line);
        }
        is_good = 0;
    }
}
#define DEMAND(condition) demand((condition) != 0, __LINE__)

static void run(const char *name, void (*test)(void))
{
    is_good = 1;
    test();
    printf("%s  %s\n", is_good ? "ok    " : "FAILED", name);
    passed += is_good;
    failed += !is_good;
}

/* ---- Random numbers, from a seed ---- */

static uint64_t seed;

static uint32_t random_word(void)
{
    seed ^= seed << 13;
    seed ^= seed >> 7;
    seed ^= seed << 17;
    return (uint32_t)(seed >> 32);
}

static uint32_t random_below(uint32_t limit)
{
    return random_word() % limit;
}

/* A number that is often at an edge, often small, else any. */
static uint32_t random_number(uint32_t small)
{
    uint32_t kind = random_below(8);
    if (kind == 0) {
        return random_word();
    }
    if (kind == 1) {
        return edges[random_below((uint32_t)EDGES)];
    }
    return random_below(small);
}

/* ---- Bytes ---- */

/* The bytes of a hex text, and how many. */
static size_t bytes_of(const char *hex, uint8_t *bytes)
{
    size_t count = 0;
    while (*hex != 0) {
        char digits[3];
        if (*hex == ' ') {
            hex++;
            continue;
        }
        digits[0] = hex[0];
        digits[1] = hex[1];
        digits[2] = 0;
        bytes[count++] = (uint8_t)strtoul(digits, NULL, 16);
        hex += 2;
    }
    return count;
}

/* ---- What is lent: pages between pages that can't be touched ---- */

struct pages {
    uint8_t *bytes;
    size_t size;
};

static struct pages rooms;  /* where rooms are lent */
static struct pages inputs; /* where frames and tables are lent */
static struct pages halls;  /* random bytes that can only be read: the hall table of any hall is a part of them, lent where it lies */
static uint8_t *paints[2];  /* what the pages of rooms hold before a call; the second is the first with every bit turned */

static struct pages fenced(size_t least)
{
    size_t page = (size_t)sysconf(_SC_PAGESIZE);
    size_t size = (least + page - 1) / page * page;
    struct pages p;
    void *at = mmap(NULL, size + 2 * page, PROT_NONE, MAP_PRIVATE | MAP_ANONYMOUS, -1, 0);
    if (at == MAP_FAILED) {
        printf("no memory\n");
        exit(EXIT_FAILURE);
    }
    p.bytes = (uint8_t *)at + page;
    p.size = size;
    if (mprotect(p.bytes, size, PROT_READ | PROT_WRITE) != 0) {
        printf("no memory\n");
        exit(EXIT_FAILURE);
    }
    return p;
}

static void prepare_pages(void)
{
    size_t i;
    rooms = fenced(ANY_ROOM);
    inputs = fenced(LONGEST_FRAME);
    halls = fenced(LONGEST_HALL_TABLE + BEYOND);
    paints[0] = (uint8_t *)malloc(rooms.size);
    paints[1] = (uint8_t *)malloc(rooms.size);
    if (paints[0] == NULL || paints[1] == NULL) {
        printf("no memory\n");
        exit(EXIT_FAILURE);
    }
    for (i = 0; i < rooms.size; i++) {
        paints[0][i] = (uint8_t)(i * 7 + i / 256 + 33);
        paints[1][i] = (uint8_t)~paints[0][i];
    }
    for (i = 0; i < halls.size; i += sizeof seed) {
        random_word();
        memcpy(halls.bytes + i, &seed, sizeof seed);
    }
    if (mprotect(halls.bytes, halls.size, PROT_READ) != 0) {
        printf("the pages of hall tables can't be made such that they are only read\n");
        exit(EXIT_FAILURE);
    }
}

/* A part of the pages: at their front, or at their back. */
static uint8_t *part(const struct pages *p, int back, size_t length)
{
    return back ? p->bytes + (p->size - length) : p->bytes;
}

/* Whether the pages of rooms hold their paint outside of `size` bytes from `at` on. */
static int is_kept(const uint8_t *paint, const uint8_t *at, size_t size)
{
    size_t before = (size_t)(at - rooms.bytes);
    return memcmp(rooms.bytes, paint, before) == 0
        && memcmp(rooms.bytes + before + size, paint + before + size, rooms.size - before - size) == 0;
}

/* ---- Sizes ---- */

/* t(level) of n servers a switch. */
static uint32_t servers_of(uint32_t n, uint32_t level)
{
    uint32_t t = n;
    while (level-- > 0) {
        t *= t + 1;
    }
    return t;
}

/* The count of a full hall, which is the highest: t(k) / t(1), and 1 with k below 2. Also 1 where no hall has such a k. */
static uint32_t full_count(uint32_t n, uint32_t k)
{
    uint32_t in_dcell2 = servers_of(n, 1) + 1;
    switch (k) {
    case 2:
        return in_dcell2;
    case 3:
        return (servers_of(n, 2) + 1) * in_dcell2;
    default:
        return 1;
    }
}

/* ---- Questions: a call with all its arguments but the room ---- */

enum call { ROUTE, READ, PLACE, WRITE, TABLE, STEP };
#define CALLS 6u
static const char *const call_names[CALLS] = {"route", "read_header", "header_place", "write_header", "step_table", "step"};

struct question {
    enum call call;
    uint32_t n, k, b, count;               /* route, table and step */
    uint32_t from, to, has_proxy, proxy;   /* x or uid or source, y or dst or destination */
    uint8_t retry, ttl;                    /* write and step */
    uint8_t protocol;                      /* write */
    uint16_t payload_length;               /* write */
    uint32_t identification;               /* write */
    const uint8_t *bytes;                  /* the frame, the hall table or the table of a step */
    size_t length;
    int is_in_place;                       /* the bytes are a part of `halls`, and lent where they lie */
};

static struct question no_question(enum call call)
{
    struct question q;
    memset(&q, 0, sizeof q);
    q.call = call;
    return q;
}

/* A question that has a hall is about the full one, unless it is asked `with_count`. */
static struct question route_question(uint32_t n, uint32_t k, uint32_t b, uint32_t x, uint32_t y)
{
    struct question q = no_question(ROUTE);
    q.n = n;
    q.k = k;
    q.b = b;
    q.count = full_count(n, k);
    q.from = x;
    q.to = y;
    return q;
}

static struct question read_question(const uint8_t *frame, size_t length)
{
    struct question q = no_question(READ);
    q.bytes = frame;
    q.length = length;
    return q;
}

/* A header without a proxy. */
static struct question write_question(uint8_t protocol, uint32_t identification, uint8_t retry, uint8_t ttl, uint32_t source,
                                      uint32_t destination)
{
    struct question q = no_question(WRITE);
    q.protocol = protocol;
    q.identification = identification;
    q.retry = retry;
    q.ttl = ttl;
    q.from = source;
    q.to = destination;
    return q;
}

/* The table of a step at a server, from a hall table. */
static struct question table_question(uint32_t n, uint32_t k, uint32_t b, const uint8_t *hall_table, size_t length, uint32_t uid)
{
    struct question q = route_question(n, k, b, uid, 0);
    q.call = TABLE;
    q.bytes = hall_table;
    q.length = length;
    return q;
}

/* The same from a hall table of random bytes, which lies at the front or the back of its pages. */
static struct question table_question_in_place(uint32_t n, uint32_t k, uint32_t b, int back, size_t length, uint32_t uid)
{
    struct question q = table_question(n, k, b, part(&halls, back, length), length, uid);
    q.is_in_place = 1;
    return q;
}

/* A step of a packet without a proxy. */
static struct question step_question(uint32_t n, uint32_t k, uint32_t b, uint32_t uid, uint32_t dst, uint8_t retry, uint8_t ttl,
                                     const uint8_t *table, size_t length)
{
    struct question q = route_question(n, k, b, uid, dst);
    q.call = STEP;
    q.retry = retry;
    q.ttl = ttl;
    q.bytes = table;
    q.length = length;
    return q;
}

static struct question with_proxy(struct question q, uint32_t proxy)
{
    q.has_proxy = 1;
    q.proxy = proxy;
    return q;
}

/* The same in the hall of which so many DCell1s are fitted. */
static struct question with_count(struct question q, uint32_t count)
{
    q.count = count;
    return q;
}

static uint32_t ask(const struct question *q, uint8_t *room, size_t length)
{
    switch (q->call) {
    case ROUTE:
        return tbexlum_route(q->n, q->k, q->b, q->count, q->from, q->to, room, length);
    case READ:
        return tbexlum_read_header(q->bytes, q->length, room, length);
    case PLACE:
        return tbexlum_header_place(q->bytes, q->length); /* it is lent no room */
    case WRITE:
        return tbexlum_write_header(q->protocol, q->payload_length, q->identification, q->retry, q->ttl, q->from, q->to, q->has_proxy,
                                    q->proxy, room, length);
    case TABLE:
        return tbexlum_step_table(q->n, q->k, q->b, q->count, q->bytes, q->length, q->from, room, length);
    default:
        return tbexlum_step(q->n, q->k, q->b, q->count, q->from, q->to, q->has_proxy, q->proxy, q->retry, q->ttl, q->bytes, q->length, room,
                            length);
    }
}

/* The question with its frame or table lent at the front or the back of the pages. */
static struct question lent(const struct question *asked, int back)
{
    struct question q = *asked;
    if (q.length != 0 && !q.is_in_place) {
        uint8_t *at = part(&inputs, back, q.length);
        memcpy(at, asked->bytes, q.length);
        q.bytes = at;
    }
    return q;
}

/* Whether the frame or table that was lent holds what it held before. */
static int is_as_lent(const struct question *q, const struct question *asked)
{
    return q->length == 0 || q->is_in_place || memcmp(q->bytes, asked->bytes, q->length) == 0;
}

/* A room that every answer of a call fits in. */
static size_t most_room(enum call call)
{
    return call == TABLE ? TBEXLUM_STEP_TABLE_ROOM : TBEXLUM_ROUTE_ROOM;
}

/* Prints a question, for the first fault of a test. */
static void print_question(const struct question *q)
{
    printf("%s, n %" PRIu32 ", k %" PRIu32 ", b %" PRIu32 ", count %" PRIu32 ", from %" PRIu32 " to %" PRIu32 ", has_proxy %" PRIu32
           ", proxy %" PRIu32 ", retry %u, TTL %u, %zu bytes lent: ",
           call_names[q->call], q->n, q->k, q->b, q->count, q->from, q->to, q->has_proxy, q->proxy, (unsigned)q->retry, (unsigned)q->ttl,
           q->length);
}

/* Whether a call returned this number. */
static int is_number(const struct question *q, uint32_t number, uint32_t wanted)
{
    if (number != wanted && is_good) {
        print_question(q);
        printf("returned %" PRIu32 ", not %" PRIu32 "\n", number, wanted);
    }
    return number == wanted;
}

/* Whether a call wrote this answer. */
static int is_answer(const struct question *q, const uint8_t *room, const uint8_t *answer, size_t size)
{
    size_t i;
    for (i = 0; i < size; i++) {
        if (room[i] != answer[i]) {
            if (is_good) {
                print_question(q);
                printf("byte %zu of the answer is %u, not %u\n", i, (unsigned)room[i], (unsigned)answer[i]);
            }
            return 0;
        }
    }
    return 1;
}

/* A demand whose question is printed where it does not hold. */
static void demand_of(const struct question *q, int holds, int line)
{
    if (!holds && is_good) {
        print_question(q);
    }
    demand(holds, line);
}
#define DEMAND_OF(question, condition) demand_of(&(question), (condition) != 0, __LINE__)

/* Whether a call with a room of this length returns the number, writes exactly this answer to the room's start, and keeps the rest. */
static int tells(const struct question *asked, size_t length, uint32_t number, const uint8_t *answer, size_t size)
{
    int back;
    int turned;
    for (back = 0; back < 2; back++) {
        struct question q = lent(asked, back);
        for (turned = 0; turned < 2; turned++) {
            uint8_t *room = part(&rooms, back, length);
            memcpy(rooms.bytes, paints[turned], rooms.size);
            if (!is_number(&q, ask(&q, room, length), number) || !is_answer(&q, room, answer, size)) {
                return 0;
            }
            if (!is_kept(paints[turned], room, size) || !is_as_lent(&q, asked)) {
                return 0;
            }
        }
    }
    return 1;
}

/* Whether a call gives this answer in every room that is long enough, and refuses every shorter one by 6. */
static int answers(struct question q, const uint8_t *answer, size_t size)
{
    size_t length;
    for (length = 0; length < size; length++) {
        if (!tells(&q, length, TBEXLUM_REFUSED_SHORT_ROOM, NULL, 0)) {
            return 0;
        }
    }
    for (length = size; length <= size + BEYOND; length++) {
        if (!tells(&q, length, TBEXLUM_ANSWERED, answer, size)) {
            return 0;
        }
    }
    return ask(&q, NULL, 0) == TBEXLUM_REFUSED_SHORT_ROOM;
}

/* Whether a call is refused by this number with a room of every length, and keeps the room. */
static int refuses(struct question q, uint32_t number)
{
    size_t length;
    for (length = 0; length <= most_room(q.call) + BEYOND; length++) {
        if (!tells(&q, length, number, NULL, 0)) {
            return 0;
        }
    }
    return ask(&q, NULL, 0) == number;
}

/* The same with a room of one length. */
static int refuses_once(struct question q, uint32_t number)
{
    return tells(&q, most_room(q.call), number, NULL, 0);
}

/* Whether a call is answered, whatever the answer is. */
static int is_answered(struct question q)
{
    uint8_t room[ANY_ROOM];
    return ask(&q, room, sizeof room) == TBEXLUM_ANSWERED;
}

/* ---- Answers, by the offsets of the header file ---- */

static int answers_uids(struct question q, const uint32_t *uids, size_t count)
{
    uint8_t answer[ANY_ROOM];
    size_t i;
    for (i = 0; i < count; i++) {
        tbexlum_put_word(answer, TBEXLUM_ROUTE_UIDS_AT + i * TBEXLUM_WORD, uids[i]);
    }
    return answers(q, answer, count * TBEXLUM_WORD);
}

/* A frame says the fields that a question asked to write. */
static int answers_fields(struct question q, const struct question *says, uint32_t header_bytes)
{
    uint8_t answer[ANY_ROOM];
    memset(answer, 0, sizeof answer);
    tbexlum_put_word(answer, TBEXLUM_READ_HEADER_BYTES_AT, header_bytes);
    tbexlum_put_word(answer, TBEXLUM_READ_PROTOCOL_AT, says->protocol);
    tbexlum_put_word(answer, TBEXLUM_READ_PAYLOAD_LENGTH_AT, says->payload_length);
    tbexlum_put_word(answer, TBEXLUM_READ_IDENTIFICATION_AT, says->identification);
    tbexlum_put_word(answer, TBEXLUM_READ_RETRY_AT, says->retry);
    tbexlum_put_word(answer, TBEXLUM_READ_TTL_AT, says->ttl);
    tbexlum_put_word(answer, TBEXLUM_READ_SOURCE_AT, says->from);
    tbexlum_put_word(answer, TBEXLUM_READ_DESTINATION_AT, says->to);
    tbexlum_put_word(answer, TBEXLUM_READ_HAS_PROXY_AT, says->has_proxy != 0);
    tbexlum_put_word(answer, TBEXLUM_READ_PROXY_AT, says->has_proxy != 0 ? says->proxy : 0);
    return answers(q, answer, TBEXLUM_READ_ROOM);
}

struct packet {
    uint32_t dst, has_proxy, proxy, retry, ttl;
};

/* The answer of a step. */
static void put_step(uint8_t *answer, uint32_t ending, uint32_t next, struct packet p, uint32_t reroutes)
{
    memset(answer, 0, TBEXLUM_STEP_ROOM);
    tbexlum_put_word(answer, TBEXLUM_STEP_ENDING_AT, ending);
    tbexlum_put_word(answer, TBEXLUM_STEP_NEXT_AT, next);
    tbexlum_put_word(answer, TBEXLUM_STEP_DST_AT, p.dst);
    tbexlum_put_word(answer, TBEXLUM_STEP_HAS_PROXY_AT, p.has_proxy);
    tbexlum_put_word(answer, TBEXLUM_STEP_PROXY_AT, p.proxy);
    tbexlum_put_word(answer, TBEXLUM_STEP_RETRY_AT, p.retry);
    tbexlum_put_word(answer, TBEXLUM_STEP_TTL_AT, p.ttl);
    tbexlum_put_word(answer, TBEXLUM_STEP_REROUTES_AT, reroutes);
}

static int answers_step(struct question q, uint32_t ending, uint32_t next, struct packet p, uint32_t reroutes)
{
    uint8_t answer[ANY_ROOM];
    put_step(answer, ending, next, p, reroutes);
    return answers(q, answer, TBEXLUM_STEP_ROOM);
}

static struct packet packet_of(uint32_t dst, uint32_t has_proxy, uint32_t proxy, uint32_t retry, uint32_t ttl)
{
    struct packet p;
    p.dst = dst;
    p.has_proxy = has_proxy;
    p.proxy = proxy;
    p.retry = retry;
    p.ttl = ttl;
    return p;
}

/* The packet as it came. */
static struct packet packet_in(const struct question *q)
{
    return packet_of(q->to, q->has_proxy != 0, q->has_proxy != 0 ? q->proxy : 0, q->retry, q->ttl);
}

/* A packet that is answered as it came ends the step. */
static int ends(struct question q, uint32_t ending, uint32_t reroutes)
{
    return answers_step(q, ending, 0, packet_in(&q), reroutes);
}

/* The same with a room of one length. */
static int ends_once(struct question q, uint32_t ending, uint32_t reroutes)
{
    uint8_t answer[ANY_ROOM];
    put_step(answer, ending, 0, packet_in(&q), reroutes);
    return tells(&q, TBEXLUM_STEP_ROOM, TBEXLUM_ANSWERED, answer, TBEXLUM_STEP_ROOM);
}

/* ---- Halls ---- */

/* The codes of the hall table: k + 1 ports of every server. */
static size_t hall_table_length(uint32_t n, uint32_t k)
{
    return (size_t)servers_of(n, k) * (k + 1);
}

/* The codes of the table of a cell: k + 1 ports of every server of a DCell(b). */
static size_t cell_table_length(uint32_t n, uint32_t k, uint32_t b)
{
    return (size_t)servers_of(n, b) * (k + 1);
}

/* The codes of the table of a step: those of a cell, and a far code for each of its servers and each level from b + 1 to k. */
static size_t step_table_length(uint32_t n, uint32_t k, uint32_t b)
{
    return cell_table_length(n, k, b) + (size_t)servers_of(n, b) * (k - b);
}

/* Where the far code of the cell's server j and a level above b stands in the table of a step. */
static size_t far_at(uint32_t n, uint32_t k, uint32_t b, uint32_t j, uint32_t level)
{
    return cell_table_length(n, k, b) + (size_t)j * (k - b) + (level - b - 1);
}

/* The lowest level whose DCell holds both servers; k where none does. */
static uint32_t level_of(uint32_t n, uint32_t k, uint32_t x, uint32_t y)
{
    uint32_t level = 0;
    while (level < k && x / servers_of(n, level) != y / servers_of(n, level)) {
        level++;
    }
    return level;
}

/* Whether two servers are joined by a link of this level. At level 0, two servers of one DCell(0) are. Above it, server p' of sub-cell p
 * and server q' of sub-cell q of one DCell, p < q, are joined exactly when p' = q - 1 and q' = p. */
static int are_joined(uint32_t n, uint32_t level, uint32_t x, uint32_t y)
{
    uint32_t low = x < y ? x : y;
    uint32_t high = x < y ? y : x;
    uint32_t sub;
    uint32_t start;
    uint32_t p;
    uint32_t q;
    if (level == 0) {
        return x != y && x / n == y / n;
    }
    sub = servers_of(n, level - 1);
    start = low - low % servers_of(n, level);
    if (start != high - high % servers_of(n, level)) {
        return 0;
    }
    p = (low - start) / sub;
    q = (high - start) / sub;
    return p < q && (low - start) % sub == q - 1 && (high - start) % sub == p;
}

/* The one server that is joined to a server by a link of this level, which is above 0. */
static uint32_t neighbour_of(uint32_t n, uint32_t uid, uint32_t level)
{
    uint32_t sub = servers_of(n, level - 1);
    uint32_t start = uid - uid % servers_of(n, level);
    uint32_t cell = (uid - start) / sub;
    uint32_t inside = (uid - start) % sub;
    return inside < cell ? start + inside * sub + cell - 1 : start + (inside + 1) * sub + cell;
}

/* ---- Which servers are fitted: the procedure of the paper, run addition by addition ----
 * A DCell1 of a hall has the number uid / t(1), and a DCell2 has t(1) + 1 of them. */

/* Of each hall with k of 2 or 3: the DCell1s in the order in which they are fitted, and for each DCell1 how many are fitted before it. */
static uint32_t *fitted_in_turn[9][4];
static uint32_t *turn_of[9][4];

/* GetIndex, figure 6 of the paper: the DCell2 of a DCell3 that the next DCell1 goes to. Each of the first `begun` has some of its `most`
 * DCell1s, and those before `open` are full; they stay full. */
static uint32_t get_index(const uint32_t *held, uint32_t begun, uint32_t most, uint32_t *open)
{
    if (begun < most) {
        return begun;
    }
    while (*open < begun && held[*open] == most) {
        ++*open;
    }
    return *open; /* the first that is not full; where all are, it is a new one */
}

/* AddDCell, figure 6, until the hall is full. */
static void fit_all(uint32_t n, uint32_t k, uint32_t *in_turn, uint32_t *turns)
{
    static uint32_t held[MOST_DCELL2S]; /* how many DCell1s each DCell2 has */
    uint32_t most = servers_of(n, 1) + 1;
    uint32_t begun = 0;
    uint32_t open = 0;
    uint32_t count;
    memset(held, 0, sizeof held);
    for (count = 0; count < full_count(n, k); count++) {
        uint32_t dcell2 = k == 2 ? 0 : get_index(held, begun, most, &open);
        uint32_t dcell1 = dcell2 * most + held[dcell2]; /* in a DCell2 the next free index is used */
        begun += held[dcell2] == 0;
        held[dcell2]++;
        in_turn[count] = dcell1;
        turns[dcell1] = count;
    }
}

static void prepare_fitted(void)
{
    uint32_t n;
    uint32_t k;
    for (n = 2; n <= 8; n++) {
        for (k = 2; k <= 3; k++) {
            size_t bytes = full_count(n, k) * sizeof(uint32_t);
            fitted_in_turn[n][k] = (uint32_t *)malloc(bytes);
            turn_of[n][k] = (uint32_t *)malloc(bytes);
            if (fitted_in_turn[n][k] == NULL || turn_of[n][k] == NULL) {
                printf("no memory\n");
                exit(EXIT_FAILURE);
            }
            memset(turn_of[n][k], 255, bytes); /* a DCell1 without a turn would show in `fitted_turns` */
            fit_all(n, k, fitted_in_turn[n][k], turn_of[n][k]);
        }
    }
}

/* Whether there is such a server, and it is fitted where so many DCell1s are. */
static int is_fitted(uint32_t n, uint32_t k, uint32_t count, uint32_t uid)
{
    return uid < servers_of(n, k) && (k < 2 || turn_of[n][k][uid / servers_of(n, 1)] < count);
}

/* Whether a port's own server and its far server are fitted. Port 0 leads to the switch and has no far server. */
static int is_port_fitted(uint32_t n, uint32_t k, uint32_t count, uint32_t uid, uint32_t port)
{
    return is_fitted(n, k, count, uid) && (port == 0 || is_fitted(n, k, count, neighbour_of(n, uid, port)));
}

/* How many DCell1s are fitted before that of a server, as docs/DRIVER.md works it out. */
static uint32_t turn_by_manual(uint32_t n, uint32_t k, uint32_t uid)
{
    uint32_t t1 = servers_of(n, 1);
    uint32_t q = uid / servers_of(n, 2);
    uint32_t i = uid % servers_of(n, 2) / t1;
    if (k == 2) {
        return i;
    }
    if (q > t1) {
        return q * (t1 + 1) + i;
    }
    return i == 0 ? q : (q + 1) * t1 + i;
}

/* Some counts of a hall: those after which another DCell2 is begun or filled, and those beside them; also 0, 1, 2 and the last three.
 * Answers how many. */
#define MOST_COUNTS 18u
static size_t counts_of(uint32_t n, uint32_t k, uint32_t *counts)
{
    uint32_t most = servers_of(n, 1) + 1;
    uint32_t full = full_count(n, k);
    const uint32_t turns[] = {1, most, 2 * most - 1, most * most, most * most + most, full - 1};
    size_t size = 0;
    size_t i;
    uint32_t count;
    if (k < 2) {
        counts[0] = 1;
        return 1;
    }
    for (i = 0; i < sizeof turns / sizeof turns[0]; i++) {
        for (count = turns[i] - 1; count <= turns[i] + 1 && count <= full; count++) {
            counts[size++] = count;
        }
    }
    return size;
}

/* Some counts that the hall can't have, at most MOST_COUNTS. Answers how many. */
static size_t wrong_counts_of(uint32_t n, uint32_t k, uint32_t *counts)
{
    uint32_t full = full_count(n, k);
    size_t size = 0;
    counts[size++] = full + 1;
    counts[size++] = full + 2;
    counts[size++] = full + 256;
    counts[size++] = full + 65536;
    counts[size++] = 2147483648u;
    counts[size++] = 2147483648u + full;
    counts[size++] = HUGE_WORD - 1;
    counts[size++] = HUGE_WORD;
    if (k < 3) {
        counts[size++] = full_count(n, k < 2 ? 2 : 3);
    }
    if (k < 2) {
        counts[size++] = 0;
    }
    return size;
}

/* A server that is fitted where so many DCell1s are, but at least one. */
static uint32_t random_fitted(uint32_t n, uint32_t k, uint32_t count)
{
    uint32_t t1 = servers_of(n, 1);
    return k < 2 ? random_below(servers_of(n, k)) : fitted_in_turn[n][k][random_below(count)] * t1 + random_below(t1);
}

/* The code of a server's port in a hall table. */
static uint8_t code_of(uint32_t k, const uint8_t *hall_table, uint32_t uid, uint32_t port)
{
    return hall_table[(size_t)uid * (k + 1) + port];
}

/* The same as it counts in a hall of which so many DCell1s are fitted. */
static uint8_t counted_code(uint32_t n, uint32_t k, uint32_t count, const uint8_t *hall_table, uint32_t uid, uint32_t port)
{
    return is_port_fitted(n, k, count, uid, port) ? code_of(k, hall_table, uid, port) : 0;
}

/* The table of a step at a server; answers its bytes. */
static size_t step_table_of(uint32_t n, uint32_t k, uint32_t b, uint32_t count, const uint8_t *hall_table, uint32_t uid, uint8_t *table)
{
    uint32_t cell = servers_of(n, b);
    uint32_t first = uid - uid % cell;
    uint32_t server;
    uint32_t port;
    size_t size = 0;
    for (server = first; server < first + cell; server++) {
        for (port = 0; port <= k; port++) {
            table[size++] = counted_code(n, k, count, hall_table, server, port);
        }
    }
    for (server = first; server < first + cell; server++) {
        for (port = b + 1; port <= k; port++) {
            table[size++] = counted_code(n, k, count, hall_table, neighbour_of(n, server, port), port);
        }
    }
    return size;
}

/* Calls `visit` with every hall there is. */
static void each_hall(void (*visit)(uint32_t n, uint32_t k, uint32_t b))
{
    uint32_t n;
    uint32_t k;
    uint32_t b;
    for (n = 2; n <= 8; n++) {
        for (k = 0; k <= 3; k++) {
            for (b = 0; b <= k && b <= 1; b++) {
                visit(n, k, b);
            }
        }
    }
}

/* Numbers that make no hall. */
static const uint32_t no_halls[][3] = {
    {0, 1, 0}, {1, 1, 0}, {9, 1, 0}, {258, 1, 0}, {2147483650u, 1, 0}, {HUGE_WORD, 1, 0},
    {4, 4, 0}, {4, 256, 0}, {4, HUGE_WORD, 0},
    {4, 1, 2}, {4, 3, 2}, {4, 0, 1}, {4, 1, 256}, {4, 3, HUGE_WORD},
    {1, 2, 0}, {9, 2, 0}, {1, 3, 1}, {9, 3, 1}, {258, 2, 0}, {4, 2, 2},
    {HUGE_WORD, HUGE_WORD, HUGE_WORD},
};
#define NO_HALLS (sizeof no_halls / sizeof no_halls[0])

/* ---- Route ---- */

static void route_known(void)
{
    static const uint32_t uids[] = {5, 4, 1, 0, 6, 7, 10, 11};
    static const uint32_t round[] = {11, 10, 7, 6, 0, 1, 4, 5};
    uint8_t answer[ANY_ROOM];
    size_t size = bytes_of(worked_route, answer);
    DEMAND(answers(route_question(2, 2, 0, 5, 11), answer, size));
    DEMAND(answers_uids(route_question(2, 2, 0, 5, 11), uids, 8));
    DEMAND(answers_uids(route_question(2, 2, 1, 5, 11), uids, 8));
    DEMAND(answers_uids(route_question(2, 2, 0, 11, 5), round, 8));
}

static void route_itself(void)
{
    static const uint32_t uids[] = {19};
    static const uint32_t last[] = {27630791u};
    DEMAND(answers_uids(route_question(4, 1, 0, 19, 19), uids, 1));
    DEMAND(answers_uids(route_question(8, 3, 1, 27630791u, 27630791u), last, 1));
}

/* The uids of a route: as many as there are up to the first that is y. */
static size_t route_uids(uint32_t n, uint32_t k, uint32_t x, uint32_t y, uint8_t *room)
{
    size_t count = 1;
    memset(room, 255, ANY_ROOM);
    if (tbexlum_route(n, k, 0, full_count(n, k), x, y, room, TBEXLUM_ROUTE_ROOM) != TBEXLUM_ANSWERED) {
        return 0;
    }
    while (count <= TBEXLUM_MOST_UIDS && tbexlum_word_at(room, TBEXLUM_ROUTE_UIDS_AT + (count - 1) * TBEXLUM_WORD) != y) {
        count++;
    }
    return count;
}

static void route_longest(void)
{
    uint8_t answer[ANY_ROOM];
    DEMAND(route_uids(2, 3, 0, 1805, answer) == TBEXLUM_MOST_UIDS);
    DEMAND(answers(route_question(2, 3, 0, 0, 1805), answer, TBEXLUM_ROUTE_ROOM));
    DEMAND(route_uids(8, 3, 0, 27630791u, answer) == TBEXLUM_MOST_UIDS);
    DEMAND(answers(route_question(8, 3, 0, 0, 27630791u), answer, TBEXLUM_ROUTE_ROOM));
}

static void route_ends(void)
{
    uint32_t x;
    uint32_t y;
    uint32_t i;
    uint8_t room[ANY_ROOM];
    for (x = 0; x < 42; x++) {
        for (y = 0; y < 42; y++) {
            size_t count = route_uids(2, 2, x, y, room);
            DEMAND(count >= 1 && count <= 8);
            DEMAND(tbexlum_word_at(room, TBEXLUM_ROUTE_UIDS_AT) == x);
            DEMAND(tbexlum_word_at(room, count * TBEXLUM_WORD) == HUGE_WORD);
        }
    }
    for (i = 0; i < RANDOM_QUESTIONS; i++) {
        uint32_t n = 2 + random_below(7);
        size_t count;
        x = random_below(servers_of(n, 3));
        y = random_below(servers_of(n, 3));
        count = route_uids(n, 3, x, y, room);
        DEMAND(count >= 1 && count <= TBEXLUM_MOST_UIDS);
        DEMAND(tbexlum_word_at(room, TBEXLUM_ROUTE_UIDS_AT) == x);
        DEMAND(tbexlum_word_at(room, count * TBEXLUM_WORD) == HUGE_WORD);
    }
}

/* Whether a question is refused by 1 with a room of every length, and so with some other counts. */
static int has_no_hall(struct question q)
{
    return refuses(q, TBEXLUM_REFUSED_BAD_HALL) && refuses_once(with_count(q, 0), TBEXLUM_REFUSED_BAD_HALL)
        && refuses_once(with_count(q, 1), TBEXLUM_REFUSED_BAD_HALL) && refuses_once(with_count(q, 2), TBEXLUM_REFUSED_BAD_HALL)
        && refuses_once(with_count(q, HUGE_WORD), TBEXLUM_REFUSED_BAD_HALL);
}

static void route_halls(void)
{
    size_t i;
    for (i = 0; i < NO_HALLS; i++) {
        DEMAND(has_no_hall(route_question(no_halls[i][0], no_halls[i][1], no_halls[i][2], 0, 1)));
    }
}

static void route_bounds(uint32_t n, uint32_t k, uint32_t b)
{
    uint32_t t = servers_of(n, k);
    DEMAND(is_answered(route_question(n, k, b, t - 1, t - 1)));
    DEMAND(is_answered(route_question(n, k, b, 0, t - 1)));
    DEMAND(is_answered(route_question(n, k, b, t - 1, 0)));
    DEMAND(refuses(route_question(n, k, b, t, 0), TBEXLUM_REFUSED_BAD_UID));
    DEMAND(refuses(route_question(n, k, b, 0, t), TBEXLUM_REFUSED_BAD_UID));
    DEMAND(refuses(route_question(n, k, b, HUGE_WORD, 0), TBEXLUM_REFUSED_BAD_UID));
    DEMAND(refuses(route_question(n, k, b, 0, HUGE_WORD), TBEXLUM_REFUSED_BAD_UID));
    DEMAND(refuses(route_question(n, k, b, 2147483648u, 2147483648u), TBEXLUM_REFUSED_BAD_UID));
}

static void route_uid_bounds(void)
{
    each_hall(route_bounds);
}

static void route_order(void)
{
    struct question q = with_count(route_question(9, 4, 5, HUGE_WORD, HUGE_WORD), 2);
    DEMAND(ask(&q, NULL, 0) == TBEXLUM_REFUSED_BAD_HALL);
    q.n = 4;
    DEMAND(ask(&q, NULL, 0) == TBEXLUM_REFUSED_BAD_HALL);
    q.k = 1;
    DEMAND(ask(&q, NULL, 0) == TBEXLUM_REFUSED_BAD_HALL);
    q.b = 0;
    DEMAND(ask(&q, NULL, 0) == TBEXLUM_REFUSED_BAD_HALL);
    q.count = 1;
    DEMAND(ask(&q, NULL, 0) == TBEXLUM_REFUSED_BAD_UID);
    q.from = 0;
    DEMAND(ask(&q, NULL, 0) == TBEXLUM_REFUSED_BAD_UID);
    q.to = 19;
    DEMAND(ask(&q, NULL, 0) == TBEXLUM_REFUSED_SHORT_ROOM);
    DEMAND(is_answered(q));
}

/* ---- Header, written ---- */

static void write_known(void)
{
    uint8_t answer[ANY_ROOM];
    struct question q = write_question(6, 1, 5, 15, 0, 19);
    DEMAND(bytes_of(worked_frame, answer) == TBEXLUM_HEADER_BYTES);
    DEMAND(answers(q, answer, TBEXLUM_HEADER_BYTES));
    q.proxy = HUGE_WORD; /* not looked at where there is no proxy */
    DEMAND(answers(q, answer, TBEXLUM_HEADER_BYTES));
}

static void write_known_proxy(void)
{
    static const uint32_t flags[] = {1, 2, 256, 65536, 2147483648u, HUGE_WORD};
    size_t i;
    uint8_t answer[ANY_ROOM];
    struct question q = with_proxy(write_question(6, 1, 4, 14, 0, 19), 4);
    DEMAND(bytes_of(worked_proxy_frame, answer) == TBEXLUM_HEADER_WITH_PROXY_BYTES);
    for (i = 0; i < sizeof flags / sizeof flags[0]; i++) {
        q.has_proxy = flags[i];
        DEMAND(answers(q, answer, TBEXLUM_HEADER_WITH_PROXY_BYTES));
    }
}

static void write_retry(void)
{
    uint32_t retry;
    for (retry = 0; retry < 256; retry++) {
        struct question q = write_question(6, 1, (uint8_t)retry, 15, 0, 19);
        if (retry <= TBEXLUM_MOST_RETRY) {
            DEMAND(is_answered(q));
        } else {
            DEMAND(refuses(q, TBEXLUM_REFUSED_BAD_RETRY));
        }
    }
}

static void write_addresses(void)
{
    uint32_t scope;
    struct question q = write_question(6, 1, 5, 15, 2147483648u, 19);
    DEMAND(refuses(q, TBEXLUM_REFUSED_BAD_ADDRESS));
    q.from = HUGE_WORD;
    DEMAND(refuses(q, TBEXLUM_REFUSED_BAD_ADDRESS));
    q.from = 2147483647u;
    DEMAND(is_answered(q));
    q.to = 2147483647u;
    DEMAND(is_answered(q));
    DEMAND(is_answered(with_proxy(q, 2147483647u)));
    DEMAND(refuses(with_proxy(q, 2147483648u), TBEXLUM_REFUSED_BAD_ADDRESS));
    DEMAND(refuses(with_proxy(q, HUGE_WORD), TBEXLUM_REFUSED_BAD_ADDRESS));
    for (scope = 0; scope < 8; scope++) {
        q.to = 2415919103u + (scope << 28);
        DEMAND(is_answered(q));
        DEMAND(refuses(with_proxy(q, 4), TBEXLUM_REFUSED_BAD_ADDRESS));
        q.to -= 1;
        DEMAND(refuses(q, TBEXLUM_REFUSED_BAD_ADDRESS));
    }
}

static void write_order(void)
{
    struct question q = with_proxy(write_question(6, 1, 16, 15, HUGE_WORD, HUGE_WORD), HUGE_WORD);
    DEMAND(ask(&q, NULL, 0) == TBEXLUM_REFUSED_BAD_RETRY);
    q.retry = 15;
    DEMAND(ask(&q, NULL, 0) == TBEXLUM_REFUSED_BAD_ADDRESS);
    q.from = 0;
    DEMAND(ask(&q, NULL, 0) == TBEXLUM_REFUSED_BAD_ADDRESS);
    q.to = 19;
    DEMAND(ask(&q, NULL, 0) == TBEXLUM_REFUSED_BAD_ADDRESS);
    q.proxy = 4;
    DEMAND(ask(&q, NULL, 0) == TBEXLUM_REFUSED_SHORT_ROOM);
    DEMAND(is_answered(q));
}

/* ---- Header, read ---- */

/* The checksum of RFC 791: the ones' complement of the ones' complement sum of the halves, the checksum's own taken as zero. */
static uint16_t checksum_of(const uint8_t *frame, size_t halves)
{
    uint32_t sum = 0;
    size_t i;
    for (i = 0; i < halves; i++) {
        if (i != 5) {
            sum += (uint32_t)frame[2 * i] << 8 | (uint32_t)frame[2 * i + 1];
            sum = (sum & 65535u) + (sum >> 16);
        }
    }
    return (uint16_t)~sum;
}

/* Puts the checksum of a header of so many bytes into it. */
static void seal(uint8_t *frame, size_t header_bytes)
{
    uint16_t sum = checksum_of(frame, header_bytes / 2);
    frame[10] = (uint8_t)(sum >> 8);
    frame[11] = (uint8_t)sum;
}

static void read_known(void)
{
    uint8_t frame[ANY_ROOM];
    uint8_t answer[ANY_ROOM];
    struct question says = write_question(6, 1, 5, 15, 0, 19);
    size_t length = bytes_of(worked_frame, frame);
    size_t size = bytes_of(worked_read, answer);
    DEMAND(size == TBEXLUM_READ_ROOM);
    DEMAND(answers(read_question(frame, length), answer, size));
    DEMAND(answers_fields(read_question(frame, length), &says, TBEXLUM_HEADER_BYTES));
    memset(frame + length, 85, 64); /* padding */
    DEMAND(answers_fields(read_question(frame, length + 64), &says, TBEXLUM_HEADER_BYTES));
}

static void read_offsets(void)
{
    static uint8_t frame[LONGEST_FRAME];
    struct question says = with_proxy(write_question(17, 2309737967u, 9, 200, 7, 1000000), 31);
    says.payload_length = 300;
    memset(frame, 170, sizeof frame);
    DEMAND(ask(&says, frame, sizeof frame) == TBEXLUM_ANSWERED);
    DEMAND(answers_fields(read_question(frame, 324), &says, TBEXLUM_HEADER_WITH_PROXY_BYTES));
    DEMAND(refuses(read_question(frame, 323), TBEXLUM_REFUSED_SHORT_FRAME));
    says = write_question(255, HUGE_WORD, 15, 255, 2147483647u, HUGE_WORD);
    says.payload_length = 65535;
    DEMAND(ask(&says, frame, sizeof frame) == TBEXLUM_ANSWERED);
    DEMAND(answers_fields(read_question(frame, 65555), &says, TBEXLUM_HEADER_BYTES));
    DEMAND(refuses(read_question(frame, 65554), TBEXLUM_REFUSED_SHORT_FRAME));
}

static void read_short(void)
{
    uint8_t frame[ANY_ROOM];
    uint8_t answer[ANY_ROOM];
    size_t length;
    size_t size = bytes_of(worked_read, answer);
    DEMAND(refuses(read_question(NULL, 0), TBEXLUM_REFUSED_SHORT_FRAME));
    DEMAND(refuses(read_question(inputs.bytes + inputs.size, 0), TBEXLUM_REFUSED_SHORT_FRAME));
    bytes_of(worked_frame, frame);
    for (length = 0; length < TBEXLUM_HEADER_BYTES; length++) {
        DEMAND(refuses(read_question(frame, length), TBEXLUM_REFUSED_SHORT_FRAME));
    }
    DEMAND(answers(read_question(frame, length), answer, size));
    bytes_of(worked_proxy_frame, frame);
    for (length = 0; length < TBEXLUM_HEADER_WITH_PROXY_BYTES; length++) {
        DEMAND(refuses(read_question(frame, length), TBEXLUM_REFUSED_SHORT_FRAME));
    }
    DEMAND(is_answered(read_question(frame, length)));
}

/* The numbers of a field at fault, in the order in which a read asks for them, and the place of each. */
static const uint32_t field_faults[4][2] = {
    {TBEXLUM_REFUSED_BAD_VERSION, 0},
    {TBEXLUM_REFUSED_BAD_DHL, 0},
    {TBEXLUM_REFUSED_BAD_FLAGS, 8},
    {TBEXLUM_REFUSED_BAD_PF, 8},
};
#define FIELD_FAULTS (sizeof field_faults / sizeof field_faults[0])

/* The first of the field faults that a frame of 20 bytes or more has; FIELD_FAULTS where it has none. */
static size_t field_fault(const uint8_t *frame)
{
    uint32_t version = frame[0] / 16u;
    uint32_t dhl = frame[0] % 16u;
    uint32_t flags = frame[8] % 16u;
    if (version != 1) {
        return 0;
    }
    if (dhl != 5 && dhl != 6) {
        return 1;
    }
    if (flags > 1) {
        return 2;
    }
    return (dhl == 6) != (flags == 1) ? 3 : FIELD_FAULTS;
}

/* The place that goes with a number. */
static uint32_t place_of(uint32_t number)
{
    size_t i;
    for (i = 0; i < FIELD_FAULTS; i++) {
        if (number == field_faults[i][0]) {
            return field_faults[i][1];
        }
    }
    return 0;
}

/* Whether a frame has this place, and nothing is written. */
static int has_place(struct question q, uint32_t place)
{
    q.call = PLACE;
    return tells(&q, 0, place, NULL, 0);
}

static void read_refused(void)
{
    static const struct {
        const char *hex;
        uint32_t number, place;
    } refused[] = {
        {worked_13_at_0, TBEXLUM_REFUSED_BAD_VERSION, 0},
        {worked_14_at_0, TBEXLUM_REFUSED_BAD_DHL, 0},
        {worked_15_at_8, TBEXLUM_REFUSED_BAD_FLAGS, 8},
        {worked_16_at_8, TBEXLUM_REFUSED_BAD_PF, 8},
        {worked_9_at_0, TBEXLUM_REFUSED_BAD_CHECKSUM, 0},
        {worked_11_at_0, TBEXLUM_REFUSED_BAD_ADDRESS, 0},
        {worked_7_at_0, TBEXLUM_REFUSED_SHORT_FRAME, 0},
    };
    uint8_t frame[ANY_ROOM];
    size_t length;
    size_t i;
    for (i = 0; i < sizeof refused / sizeof refused[0]; i++) {
        length = bytes_of(refused[i].hex, frame);
        DEMAND(refuses(read_question(frame, length), refused[i].number));
        DEMAND(has_place(read_question(frame, length), refused[i].place));
    }
    length = bytes_of(worked_frame, frame);
    DEMAND(has_place(read_question(frame, length), 0));
    length = bytes_of(worked_proxy_frame, frame);
    DEMAND(has_place(read_question(frame, length), 0));
}

static void read_headers(void)
{
    uint32_t first;
    uint32_t flags;
    for (first = 0; first < 256; first++) {
        for (flags = 0; flags < 16; flags++) {
            uint8_t frame[64];
            struct question q = read_question(frame, sizeof frame);
            size_t dhl = first % 16;
            size_t fault;
            memset(frame, 0, sizeof frame);
            frame[0] = (uint8_t)first;
            frame[8] = (uint8_t)(80 + flags);
            seal(frame, dhl < 5 ? 20 : 4 * dhl);
            fault = field_fault(frame);
            if ((first == 0x15 && flags == 0) || (first == 0x16 && flags == 1)) {
                DEMAND(fault == FIELD_FAULTS);
                DEMAND(is_answered(q));
                DEMAND(has_place(q, 0));
            } else {
                DEMAND(fault < FIELD_FAULTS);
                DEMAND(refuses_once(q, field_faults[fault % FIELD_FAULTS][0]));
                DEMAND(has_place(q, field_faults[fault % FIELD_FAULTS][1]));
            }
        }
    }
}

static void read_checksums(void)
{
    uint8_t frame[ANY_ROOM];
    uint32_t sum;
    size_t bit;
    size_t length = bytes_of(worked_frame, frame);
    for (sum = 0; sum < 65536; sum++) {
        frame[10] = (uint8_t)(sum >> 8);
        frame[11] = (uint8_t)sum;
        if (sum != 0x9AD6) {
            struct question q = read_question(frame, length);
            DEMAND(ask(&q, NULL, 0) == TBEXLUM_REFUSED_BAD_CHECKSUM);
        }
    }
    length = bytes_of(worked_proxy_frame, frame);
    for (bit = 0; bit < 8 * length; bit++) {
        uint8_t turned = (uint8_t)(1u << bit % 8);
        frame[bit / 8] ^= turned;
        DEMAND(!is_answered(read_question(frame, length)));
        frame[bit / 8] ^= turned;
    }
    DEMAND(is_answered(read_question(frame, length)));
}

static void read_zero_due(void)
{
    uint8_t frame[ANY_ROOM];
    size_t length = bytes_of("15060000 9AD60001 500F0000 00000000 00000013", frame);
    DEMAND(is_answered(read_question(frame, length)));
    frame[10] = 255;
    frame[11] = 255;
    DEMAND(refuses(read_question(frame, length), TBEXLUM_REFUSED_BAD_CHECKSUM));
}

/* A frame with these addresses, its checksum right. */
static struct question read_addresses_question(uint8_t *frame, uint32_t source, uint32_t destination, uint32_t has_proxy, uint32_t proxy)
{
    size_t length = has_proxy ? bytes_of(worked_proxy_frame, frame) : bytes_of(worked_frame, frame);
    tbexlum_put_word(frame, 12, source);
    tbexlum_put_word(frame, 16, destination);
    if (has_proxy) {
        tbexlum_put_word(frame, 20, proxy);
    }
    seal(frame, length);
    return read_question(frame, length);
}

static void read_addresses(void)
{
    uint8_t frame[ANY_ROOM];
    uint32_t scope;
    DEMAND(is_answered(read_addresses_question(frame, 2147483647u, 2147483647u, 0, 0)));
    DEMAND(is_answered(read_addresses_question(frame, 2147483647u, 2147483647u, 1, 2147483647u)));
    DEMAND(refuses(read_addresses_question(frame, 2147483648u, 19, 0, 0), TBEXLUM_REFUSED_BAD_ADDRESS));
    DEMAND(refuses(read_addresses_question(frame, HUGE_WORD, 19, 0, 0), TBEXLUM_REFUSED_BAD_ADDRESS));
    DEMAND(refuses(read_addresses_question(frame, 0, 2147483648u, 0, 0), TBEXLUM_REFUSED_BAD_ADDRESS));
    DEMAND(refuses(read_addresses_question(frame, 0, 19, 1, 2147483648u), TBEXLUM_REFUSED_BAD_ADDRESS));
    DEMAND(refuses(read_addresses_question(frame, 0, 19, 1, HUGE_WORD), TBEXLUM_REFUSED_BAD_ADDRESS));
    for (scope = 0; scope < 8; scope++) {
        uint32_t everyone = 2415919103u + (scope << 28);
        DEMAND(is_answered(read_addresses_question(frame, 0, everyone, 0, 0)));
        DEMAND(refuses(read_addresses_question(frame, 0, everyone - 1, 0, 0), TBEXLUM_REFUSED_BAD_ADDRESS));
        DEMAND(refuses(read_addresses_question(frame, 0, everyone, 1, 4), TBEXLUM_REFUSED_BAD_ADDRESS));
    }
}

/* What can be wrong with a frame, in the order in which a read asks for it, and the number that it brings. */
enum fault { UNDER_20, VERSION, DHL, FLAGS, PF, UNDER_DHL, CHECKSUM, ADDRESS, UNDER_PAYLOAD, FAULTS };
static const uint32_t fault_numbers[FAULTS] = {
    TBEXLUM_REFUSED_SHORT_FRAME,  TBEXLUM_REFUSED_BAD_VERSION, TBEXLUM_REFUSED_BAD_DHL,
    TBEXLUM_REFUSED_BAD_FLAGS,    TBEXLUM_REFUSED_BAD_PF,      TBEXLUM_REFUSED_SHORT_FRAME,
    TBEXLUM_REFUSED_BAD_CHECKSUM, TBEXLUM_REFUSED_BAD_ADDRESS, TBEXLUM_REFUSED_SHORT_FRAME,
};

static uint32_t has(uint32_t set, int fault)
{
    return set >> fault & 1u;
}

/* The first of a set of faults decides. The frame has the faults of the set and no other; where DHL is sound, it is `sound_words`. */
static void first_decides(uint32_t set, size_t sound_words)
{
    uint8_t frame[64];
    size_t words = has(set, DHL) == 0 ? sound_words : sound_words == 5 ? 15 : 7;
    uint32_t pf = words == 6; /* PF is set exactly when DHL is 6 */
    size_t payload = 3;
    size_t least = 4 * words + payload;
    size_t most = sizeof frame;
    uint32_t number = TBEXLUM_ANSWERED;
    int fault;
    memset(frame, 0, sizeof frame);
    frame[0] = (uint8_t)((has(set, VERSION) != 0 ? 64 : 16) + words);
    frame[3] = (uint8_t)payload;
    frame[8] = (uint8_t)(80 + 2 * has(set, FLAGS) + (pf ^ has(set, PF)));
    frame[12] = (uint8_t)(128 * has(set, ADDRESS));
    seal(frame, 4 * words);
    frame[11] = (uint8_t)(frame[11] ^ has(set, CHECKSUM));
    if (has(set, UNDER_PAYLOAD) != 0) {
        least = 4 * words;
        most = 4 * words + payload - 1;
    }
    if (has(set, UNDER_DHL) != 0) { /* no length where DHL is 5 */
        least = 20;
        most = 4 * words - 1;
    }
    if (has(set, UNDER_20) != 0) {
        least = 0;
        most = 19;
    }
    for (fault = FAULTS - 1; fault >= 0; fault--) {
        number = has(set, fault) != 0 ? fault_numbers[fault] : number;
    }
    for (; least <= most; least++) {
        struct question q = read_question(frame, least);
        DEMAND(has_place(q, place_of(number)));
        if (number == TBEXLUM_ANSWERED) {
            DEMAND(is_answered(q));
            DEMAND(ask(&q, NULL, 0) == TBEXLUM_REFUSED_SHORT_ROOM);
        } else {
            DEMAND(refuses_once(q, number));
            DEMAND(ask(&q, NULL, 0) == number);
        }
    }
}

static void read_order(void)
{
    uint32_t set;
    for (set = 0; set < 1u << FAULTS; set++) {
        first_decides(set, 5);
        first_decides(set, 6);
    }
}

/* The place of frames of every length, each with one field at fault: those under 20 bytes have place 0. */
static void place_lengths(void)
{
    static const char *const frames[] = {worked_13_at_0, worked_14_at_0, worked_15_at_8, worked_16_at_8};
    size_t i;
    size_t length;
    for (i = 0; i < FIELD_FAULTS; i++) {
        uint8_t frame[ANY_ROOM];
        memset(frame, 255, sizeof frame);
        bytes_of(frames[i], frame);
        for (length = 0; length <= 30; length++) {
            DEMAND(has_place(read_question(frame, length), length < 20 ? 0 : field_faults[i][1]));
        }
    }
    DEMAND(has_place(read_question(NULL, 0), 0));
    DEMAND(has_place(read_question(inputs.bytes + inputs.size, 0), 0));
}

/* ---- Both ways ---- */

/* The header of these fields, built from the layout; answers its bytes. */
static size_t header_of(const struct question *says, uint8_t *frame)
{
    size_t words = says->has_proxy != 0 ? 6 : 5;
    tbexlum_put_word(frame, 0, 1u << 28 | (uint32_t)words << 24 | (uint32_t)says->protocol << 16 | says->payload_length);
    tbexlum_put_word(frame, 4, says->identification);
    tbexlum_put_word(frame, 8, (uint32_t)says->retry << 28 | (uint32_t)(words - 5) << 24 | (uint32_t)says->ttl << 16);
    tbexlum_put_word(frame, 12, says->from);
    tbexlum_put_word(frame, 16, says->to);
    if (says->has_proxy != 0) {
        tbexlum_put_word(frame, 20, says->proxy);
    }
    seal(frame, 4 * words);
    return 4 * words;
}

static void header_both_ways(void)
{
    static uint8_t frame[LONGEST_FRAME];
    uint32_t i;
    for (i = 0; i < 500; i++) {
        struct question says = no_question(WRITE);
        size_t bytes;
        says.protocol = (uint8_t)random_word();
        says.payload_length = (uint16_t)random_below(64);
        says.identification = random_word();
        says.retry = (uint8_t)random_below(16);
        says.ttl = (uint8_t)random_word();
        says.from = random_word() / 2;
        says.has_proxy = random_below(3);
        says.proxy = random_word() / 2;
        says.to = says.has_proxy == 0 && random_below(4) == 0 ? random_word() | 2415919103u : random_word() / 2;
        bytes = header_of(&says, frame);
        DEMAND(answers(says, frame, bytes));
        DEMAND(answers_fields(read_question(frame, bytes + says.payload_length), &says, (uint32_t)bytes));
    }
}

/* ---- The table of a step ---- */

static void table_known(void)
{
    uint8_t hall_table[ANY_ROOM];
    uint8_t answer[ANY_ROOM];
    size_t length = bytes_of(worked_hall_table, hall_table);
    size_t size = bytes_of(worked_step_table, answer);
    uint32_t uid;
    DEMAND(length == 40 && hall_table[33] == 3 && size == SMALL_TABLE);
    for (uid = 0; uid < 4; uid++) { /* one cell, one table */
        DEMAND(answers(table_question(4, 1, 0, hall_table, length, uid), answer, size));
    }
}

/* Halls whose table has each byte's own offset for its code, so that a step's table shows where its codes come from. */
static void table_offsets(void)
{
    /* n = 2, k = 1: the links of level 1 are 0-2, 1-4, 3-5. */
    static const uint8_t of_1[] = {0, 1, 2, 3, 5, 9}; /* servers 0, 1; port 1 of 2, 4 */
    static const uint8_t of_3[] = {4, 5, 6, 7, 1, 11}; /* servers 2, 3; port 1 of 0, 5 */
    static const uint8_t of_4[] = {8, 9, 10, 11, 3, 7}; /* servers 4, 5; port 1 of 1, 3 */
    /* n = 2, k = 2. The server at place i of DCell(1) number c is joined by level 2 to the place c - 1 of number i where i < c, else to the
     * place c of number i + 1; a DCell(1) has 6 servers. */
    static const uint8_t of_5[] = {12, 13, 14, 15, 16, 17, 4, 92, 10, 110}; /* servers 4, 5; port 1 of 1, 2 of 30; port 1 of 3, 2 of 36 */
    static const uint8_t of_20[] = {54, 55, 56, 57, 58, 59, 60, 61, 62, 63, 64, 65, 66, 67, 68, 69, 70, 71,
                                    8, 26, 44, 83, 101, 119}; /* servers 18 to 23; port 2 of 2, 8, 14, 27, 33, 39 */
    static const uint8_t of_41[] = {108, 109, 110, 111, 112, 113, 114, 115, 116, 117, 118, 119, 120, 121, 122, 123, 124, 125,
                                    17, 35, 53, 71, 89, 107}; /* servers 36 to 41; port 2 of 5, 11, 17, 23, 29, 35 */
    uint8_t offsets[126];
    uint8_t i;
    for (i = 0; i < sizeof offsets; i++) {
        offsets[i] = i;
    }
    DEMAND(answers(table_question(2, 1, 0, offsets, 12, 1), of_1, sizeof of_1));
    DEMAND(answers(table_question(2, 1, 0, offsets, 12, 3), of_3, sizeof of_3));
    DEMAND(answers(table_question(2, 1, 0, offsets, 12, 4), of_4, sizeof of_4));
    DEMAND(answers(table_question(2, 2, 0, offsets, 126, 5), of_5, sizeof of_5));
    DEMAND(answers(table_question(2, 2, 1, offsets, 126, 20), of_20, sizeof of_20));
    DEMAND(answers(table_question(2, 2, 1, offsets, 126, 41), of_41, sizeof of_41));
    /* Where k is b, the hall is one cell, and its table is the hall table. */
    DEMAND(answers(table_question(7, 0, 0, offsets, 7, 3), offsets, 7));
    DEMAND(answers(table_question(2, 1, 1, offsets, 12, 3), offsets, 12));
    DEMAND(answers(table_question(7, 1, 1, offsets, 112, 55), offsets, 112));
}

/* The longest table fills the room that every table fits in. */
static void table_longest(void)
{
    uint8_t answer[ANY_ROOM];
    int back;
    for (back = 0; back < 2; back++) {
        struct question q = table_question_in_place(8, 3, 1, back, LONGEST_HALL_TABLE, 27630791u - 36000u);
        DEMAND(step_table_of(8, 3, 1, q.count, q.bytes, q.from, answer) == TBEXLUM_STEP_TABLE_ROOM);
        DEMAND(answers(q, answer, TBEXLUM_STEP_TABLE_ROOM));
    }
}

/* Whether the call tells the table of a step of this server, from a hall table at the front and one at the back of its pages: to a room
 * that fits, and to a longer one. A room that is a byte short is refused. */
static int tells_table(uint32_t n, uint32_t k, uint32_t b, uint32_t count, uint32_t uid)
{
    uint8_t answer[ANY_ROOM];
    uint8_t room[ANY_ROOM];
    int back;
    for (back = 0; back < 2; back++) {
        struct question q = with_count(table_question_in_place(n, k, b, back, hall_table_length(n, k), uid), count);
        size_t size = step_table_of(n, k, b, count, q.bytes, uid, answer);
        struct question step = with_count(step_question(n, k, b, uid, 0, 5, 15, answer, size), count);
        if (size != step_table_length(n, k, b) || !tells(&q, size, TBEXLUM_ANSWERED, answer, size)
            || !tells(&q, size + BEYOND, TBEXLUM_ANSWERED, answer, size) || !tells(&q, size - 1, TBEXLUM_REFUSED_SHORT_ROOM, NULL, 0)
            || ask(&step, room, sizeof room) != TBEXLUM_ANSWERED) {
            return 0;
        }
    }
    return 1;
}

static void table_servers(uint32_t n, uint32_t k, uint32_t b)
{
    uint32_t t = servers_of(n, k);
    uint32_t full = full_count(n, k);
    uint32_t level;
    uint32_t i;
    for (i = 0; i < RANDOM_QUESTIONS / 300; i++) {
        uint32_t uid = random_below(t);
        DEMAND(tells_table(n, k, b, full, uid));
        for (level = 1; level <= k; level++) {
            uint32_t sub = servers_of(n, level - 1);
            uint32_t place = random_below(sub);
            /* What the test itself takes for the neighbour is joined. */
            DEMAND(are_joined(n, level, uid, neighbour_of(n, uid, level)));
            /* In sub-cell p the neighbours of the places below p are in lower sub-cells, and those from p on are in higher ones. */
            DEMAND(tells_table(n, k, b, full, uid - uid % servers_of(n, level) + place * sub + place));
        }
    }
    for (level = 0; level <= k; level++) { /* the first and the last server of the first and the last DCell of each level */
        DEMAND(tells_table(n, k, b, full, 0));
        DEMAND(tells_table(n, k, b, full, servers_of(n, level) - 1));
        DEMAND(tells_table(n, k, b, full, t - servers_of(n, level)));
        DEMAND(tells_table(n, k, b, full, t - 1));
    }
    for (i = 0; i < t && t <= 72; i++) {
        DEMAND(tells_table(n, k, b, full, i));
    }
}

static void table_each_hall(void)
{
    each_hall(table_servers);
}

static void table_halls(void)
{
    size_t i;
    for (i = 0; i < NO_HALLS; i++) {
        const uint32_t *hall = no_halls[i];
        DEMAND(has_no_hall(table_question_in_place(hall[0], hall[1], hall[2], 1, 40, 0)));
        DEMAND(has_no_hall(table_question(hall[0], hall[1], hall[2], NULL, 0, 0)));
    }
}

/* Whether a hall table of this length, at the front or the back of its pages, is refused by 4. */
static int refuses_length(uint32_t n, uint32_t k, uint32_t b, size_t length)
{
    return refuses_once(table_question_in_place(n, k, b, 0, length, 0), TBEXLUM_REFUSED_BAD_LENGTH)
        && refuses_once(table_question_in_place(n, k, b, 1, length, 0), TBEXLUM_REFUSED_BAD_LENGTH);
}

/* Every length about the one that is needed and about none; for a short hall table every length up to it. */
static void table_lengths(uint32_t n, uint32_t k, uint32_t b)
{
    size_t needed = hall_table_length(n, k);
    size_t near = needed < 600 ? needed : 64;
    size_t length;
    uint32_t i;
    uint32_t other;
    DEMAND(is_answered(table_question_in_place(n, k, b, 0, needed, 0)) && is_answered(table_question_in_place(n, k, b, 1, needed, 0)));
    for (i = 1; i <= near; i++) {
        DEMAND(refuses_length(n, k, b, needed - i));
        DEMAND(needed == near || refuses_length(n, k, b, i - 1));
    }
    for (length = needed + 1; length <= needed + BEYOND; length++) {
        DEMAND(refuses_length(n, k, b, length));
    }
    for (i = 0; i < 3; i++) {
        length = random_below(LONGEST_HALL_TABLE);
        DEMAND(length == needed || refuses_length(n, k, b, length));
    }
    for (other = 0; other <= 3; other++) { /* the hall tables of the other levels, and what a step is lent in this hall */
        DEMAND(other == k || refuses_length(n, k, b, hall_table_length(n, other)));
    }
    DEMAND(step_table_length(n, k, b) == needed || refuses_length(n, k, b, step_table_length(n, k, b)));
    DEMAND(refuses(table_question(n, k, b, NULL, 0, 0), TBEXLUM_REFUSED_BAD_LENGTH));
    DEMAND(refuses_once(table_question(n, k, b, halls.bytes + halls.size, 0, 0), TBEXLUM_REFUSED_BAD_LENGTH));
}

static void table_hall_lengths(void)
{
    each_hall(table_lengths);
}

static void table_bounds(uint32_t n, uint32_t k, uint32_t b)
{
    uint32_t t = servers_of(n, k);
    size_t length = hall_table_length(n, k);
    DEMAND(is_answered(table_question_in_place(n, k, b, 1, length, t - 1)));
    DEMAND(refuses_once(table_question_in_place(n, k, b, 1, length, t), TBEXLUM_REFUSED_BAD_UID));
    DEMAND(refuses_once(table_question_in_place(n, k, b, 1, length, 2147483648u), TBEXLUM_REFUSED_BAD_UID));
    DEMAND(refuses_once(table_question_in_place(n, k, b, 1, length, HUGE_WORD - t), TBEXLUM_REFUSED_BAD_UID));
    DEMAND(refuses_once(table_question_in_place(n, k, b, 1, length, HUGE_WORD), TBEXLUM_REFUSED_BAD_UID));
}

static void table_uid_bounds(void)
{
    each_hall(table_bounds);
    DEMAND(refuses(table_question_in_place(4, 1, 0, 1, 40, 20), TBEXLUM_REFUSED_BAD_UID));
    DEMAND(refuses(table_question_in_place(8, 3, 1, 1, LONGEST_HALL_TABLE, 27630792u), TBEXLUM_REFUSED_BAD_UID));
}

static void table_order(void)
{
    struct question q = with_count(table_question(9, 4, 5, NULL, 0, HUGE_WORD), 2);
    DEMAND(ask(&q, NULL, 0) == TBEXLUM_REFUSED_BAD_HALL);
    q.n = 4;
    DEMAND(ask(&q, NULL, 0) == TBEXLUM_REFUSED_BAD_HALL);
    q.k = 1;
    DEMAND(ask(&q, NULL, 0) == TBEXLUM_REFUSED_BAD_HALL);
    q.b = 0;
    DEMAND(ask(&q, NULL, 0) == TBEXLUM_REFUSED_BAD_HALL);
    q.count = 1;
    DEMAND(ask(&q, NULL, 0) == TBEXLUM_REFUSED_BAD_LENGTH);
    q.bytes = halls.bytes;
    q.length = 39;
    q.is_in_place = 1;
    DEMAND(ask(&q, NULL, 0) == TBEXLUM_REFUSED_BAD_LENGTH);
    q.length = 40;
    DEMAND(ask(&q, NULL, 0) == TBEXLUM_REFUSED_BAD_UID);
    q.from = 20;
    DEMAND(ask(&q, NULL, 0) == TBEXLUM_REFUSED_BAD_UID);
    q.from = 19;
    DEMAND(ask(&q, NULL, 0) == TBEXLUM_REFUSED_SHORT_ROOM);
    DEMAND(is_answered(q));
}

/* ---- Step ---- */

/* n = 4, k = 1: the hall table of forty codes, up but for two. */
static void two_down(uint8_t *table, uint8_t code)
{
    memset(table, TBEXLUM_PORT_UP, 40);
    table[7] = code;
    table[33] = code;
}

static void step_known(void)
{
    uint8_t table[ANY_ROOM];
    uint8_t answer[ANY_ROOM];
    struct question q = step_question(4, 1, 0, 0, 19, 5, 15, table, bytes_of(worked_step_table, table));
    DEMAND(bytes_of(worked_step, answer) == TBEXLUM_STEP_ROOM);
    DEMAND(answers(q, answer, TBEXLUM_STEP_ROOM));
    DEMAND(answers_step(q, TBEXLUM_FORWARDED, 4, packet_of(19, 1, 4, 4, 14), 1));
    q.proxy = HUGE_WORD; /* not looked at where there is no proxy */
    DEMAND(answers_step(q, TBEXLUM_FORWARDED, 4, packet_of(19, 1, 4, 4, 14), 1));
}

/* A step whose eight words differ: its proxy in the own cell is cleared, since it can't be reached, and another is set. */
static void step_offsets(void)
{
    static const uint8_t near_out[] = {1, 2, 1, 1, 2, 1, 1, 2, 1, 1, 1, 1}; /* of the servers 12 to 15: port 1 of 12 and 15 is down */
    static const uint8_t far_out[] = {1, 1, 1, 1, 2, 1, 1, 1, 2, 1, 1, 2};  /* the same links, down at the far end alone */
    struct question q = with_proxy(step_question(4, 1, 0, 12, 18, 10, 200, near_out, sizeof near_out), 14);
    DEMAND(answers_step(q, TBEXLUM_FORWARDED, 13, packet_of(18, 1, 6, 8, 199), 2));
    q.bytes = far_out;
    DEMAND(answers_step(q, TBEXLUM_FORWARDED, 13, packet_of(18, 1, 6, 8, 199), 2));
}

static void step_delivered(void)
{
    static const uint8_t table[SMALL_TABLE] = {0};
    struct question q = step_question(4, 1, 0, 19, 19, 0, 0, table, sizeof table);
    DEMAND(ends(q, TBEXLUM_DELIVERED, 0));
    q.proxy = HUGE_WORD;
    DEMAND(ends(q, TBEXLUM_DELIVERED, 0));
    q.retry = 15;
    q.ttl = 255;
    DEMAND(ends(with_proxy(q, 7), TBEXLUM_DELIVERED, 0));
    DEMAND(ends(with_proxy(q, 19), TBEXLUM_DELIVERED, 0));
}

static void step_drop_ttl(void)
{
    uint8_t table[SMALL_TABLE];
    memset(table, TBEXLUM_PORT_UP, sizeof table);
    DEMAND(ends(step_question(4, 1, 0, 16, 19, 5, 0, table, sizeof table), TBEXLUM_DROP_TTL, 0));
    DEMAND(ends(with_proxy(step_question(4, 1, 0, 16, 19, 5, 0, table, sizeof table), 16), TBEXLUM_DROP_TTL, 0));
}

static void step_drop_route(void)
{
    static const uint8_t table[SMALL_TABLE] = {0};
    DEMAND(ends(step_question(4, 1, 0, 0, 1, 5, 15, table, sizeof table), TBEXLUM_DROP_ROUTE, 0));
    DEMAND(ends(with_proxy(step_question(4, 1, 0, 0, 1, 5, 15, table, sizeof table), 2), TBEXLUM_DROP_ROUTE, 0));
}

static void step_drop_retry(void)
{
    uint8_t hall_table[40];
    uint8_t table[SMALL_TABLE];
    two_down(hall_table, 2);
    DEMAND(step_table_of(4, 1, 0, 1, hall_table, 0, table) == SMALL_TABLE);
    DEMAND(ends(step_question(4, 1, 0, 0, 19, 1, 15, table, sizeof table), TBEXLUM_DROP_RETRY, 0));
    DEMAND(ends(step_question(4, 1, 0, 0, 19, 0, 15, table, sizeof table), TBEXLUM_DROP_RETRY, 0));
    memset(table, 0, sizeof table); /* a proxy in the own cell is cleared by one reroute, and the next is one too many */
    DEMAND(ends(with_proxy(step_question(4, 1, 0, 0, 19, 2, 15, table, sizeof table), 2), TBEXLUM_DROP_RETRY, 1));
}

static void step_drop_proxy(void)
{
    static const uint8_t table[SMALL_TABLE] = {0};
    DEMAND(ends(step_question(4, 1, 0, 0, 19, 5, 15, table, sizeof table), TBEXLUM_DROP_PROXY, 0));
    DEMAND(ends(with_proxy(step_question(4, 1, 0, 0, 19, 5, 15, table, sizeof table), 2), TBEXLUM_DROP_PROXY, 1));
}

static void step_codes(void)
{
    uint32_t code;
    for (code = 0; code < 256; code++) {
        uint8_t table[SMALL_TABLE];
        memset(table, (int)code, sizeof table);
        if (code == TBEXLUM_PORT_UP) {
            DEMAND(answers_step(step_question(4, 1, 0, 0, 1, 5, 15, table, sizeof table), TBEXLUM_FORWARDED, 1,
                                packet_of(1, 0, 0, 5, 14), 0));
            DEMAND(answers_step(step_question(4, 1, 0, 3, 19, 5, 15, table, sizeof table), TBEXLUM_FORWARDED, 16,
                                packet_of(19, 0, 0, 5, 14), 0));
        } else {
            DEMAND(ends(step_question(4, 1, 0, 0, 1, 5, 15, table, sizeof table), TBEXLUM_DROP_ROUTE, 0));
            DEMAND(ends(step_question(4, 1, 0, 3, 19, 5, 15, table, sizeof table), TBEXLUM_DROP_PROXY, 0));
        }
    }
}

/* Where one end of the link from 3 to 16 has any code but 1, it is not used: neither by server 3, which is its end, nor by server 0, which
 * would send to 3, nor where 3 is to be a proxy's near end. */
static void step_strands(void)
{
    static const size_t ends_of_3[] = {3 * 2 + 1, SMALL_FAR_AT + 3}; /* the near port and the far port */
    size_t end;
    uint32_t code;
    for (end = 0; end < 2; end++) {
        for (code = 0; code < 256; code++) {
            uint8_t table[SMALL_TABLE];
            struct question at_3 = step_question(4, 1, 0, 3, 19, 5, 15, table, sizeof table);
            struct question at_0 = step_question(4, 1, 0, 0, 19, 5, 15, table, sizeof table);
            memset(table, TBEXLUM_PORT_UP, sizeof table);
            table[ends_of_3[end]] = (uint8_t)code;
            if (code == TBEXLUM_PORT_UP) {
                DEMAND(answers_step(at_3, TBEXLUM_FORWARDED, 16, packet_of(19, 0, 0, 5, 14), 0));
                DEMAND(answers_step(at_0, TBEXLUM_FORWARDED, 3, packet_of(19, 0, 0, 5, 14), 0));
            } else {
                DEMAND(answers_step(at_3, TBEXLUM_FORWARDED, 0, packet_of(19, 1, 4, 4, 14), 1));
                DEMAND(answers_step(at_0, TBEXLUM_FORWARDED, 4, packet_of(19, 1, 4, 4, 14), 1));
                table[SMALL_FAR_AT] = 3; /* 0 to 4 is out, too: the next server that has a usable link is 1 */
                DEMAND(answers_step(at_0, TBEXLUM_FORWARDED, 1, packet_of(19, 1, 8, 4, 14), 1));
                table[SMALL_FAR_AT + 1] = 3;
                table[SMALL_FAR_AT + 2] = 3;
                DEMAND(ends(at_3, TBEXLUM_DROP_PROXY, 0));
                DEMAND(ends(at_0, TBEXLUM_DROP_PROXY, 0));
            }
        }
    }
}

/* n = 2, k = 2, b = 0: server 5 has a packet to 11, whose route is 5 4 1 0 6 .. : its first link above b is 4-1, of level 1. Behind the six
 * codes of the servers 4 and 5 stand the far codes of 4 (level 1, level 2) and of 5 (level 1, level 2). */
static void step_far_places(void)
{
    static const uint8_t codes[] = {0, 2, 3, 4, 5, 255};
    size_t i;
    for (i = 0; i < sizeof codes; i++) {
        uint8_t table[10];
        struct question q = step_question(2, 2, 0, 5, 11, 5, 15, table, sizeof table);
        memset(table, TBEXLUM_PORT_UP, sizeof table);
        table[7] = codes[i];
        table[8] = codes[i];
        table[9] = codes[i];
        DEMAND(answers_step(q, TBEXLUM_FORWARDED, 4, packet_of(11, 0, 0, 5, 14), 0)); /* no other far code plays a part */
        memset(table, TBEXLUM_PORT_UP, sizeof table);
        table[6] = codes[i];
        DEMAND(answers_step(q, TBEXLUM_FORWARDED, 3, packet_of(11, 1, 3, 4, 14), 1)); /* 5-3 is the nearest of level 1 */
        table[8] = codes[i];
        DEMAND(answers_step(q, TBEXLUM_FORWARDED, 36, packet_of(11, 1, 36, 4, 14), 1)); /* 5-36 is the nearest of level 2 */
        table[9] = codes[i];
        DEMAND(answers_step(q, TBEXLUM_FORWARDED, 4, packet_of(11, 1, 30, 4, 14), 1)); /* 4-30 is the last one */
        table[7] = codes[i];
        DEMAND(ends(q, TBEXLUM_DROP_PROXY, 0));
    }
}

static void step_flags(void)
{
    static const uint32_t flags[] = {1, 2, 256, 65536, 2147483648u, HUGE_WORD};
    uint8_t table[SMALL_TABLE];
    size_t i;
    memset(table, TBEXLUM_PORT_UP, sizeof table);
    for (i = 0; i < sizeof flags / sizeof flags[0]; i++) {
        struct question q = with_proxy(step_question(4, 1, 0, 0, 19, 5, 15, table, sizeof table), 8);
        q.has_proxy = flags[i];
        DEMAND(answers_step(q, TBEXLUM_FORWARDED, 1, packet_of(19, 1, 8, 5, 14), 0));
    }
}

static void step_halls(void)
{
    uint8_t table[LONGEST_TABLE];
    size_t i;
    memset(table, TBEXLUM_PORT_UP, sizeof table);
    for (i = 0; i < NO_HALLS; i++) {
        struct question q = step_question(no_halls[i][0], no_halls[i][1], no_halls[i][2], 0, 1, 5, 15, table, SMALL_TABLE);
        DEMAND(has_no_hall(q));
        q.bytes = NULL;
        q.length = 0;
        DEMAND(has_no_hall(q));
    }
}

static void step_lengths(uint32_t n, uint32_t k, uint32_t b)
{
    uint8_t table[LONGEST_TABLE + BEYOND];
    uint32_t t = servers_of(n, k);
    size_t needed = step_table_length(n, k, b);
    size_t length;
    memset(table, TBEXLUM_PORT_UP, sizeof table);
    for (length = 0; length <= needed + BEYOND; length++) {
        struct question q = step_question(n, k, b, t - 1, 0, 5, 15, table, length);
        if (length == needed) {
            DEMAND(is_answered(lent(&q, 0)) && is_answered(lent(&q, 1)));
        } else {
            DEMAND(refuses_once(q, TBEXLUM_REFUSED_BAD_LENGTH));
        }
    }
    DEMAND(refuses(step_question(n, k, b, 0, 1, 5, 15, NULL, 0), TBEXLUM_REFUSED_BAD_LENGTH));
    DEMAND(refuses(step_question(n, k, b, 0, 1, 5, 15, inputs.bytes + inputs.size, 0), TBEXLUM_REFUSED_BAD_LENGTH));
}

static void step_table_lengths(void)
{
    each_hall(step_lengths);
}

/* The table of the cell, without the far codes: it is the whole table of a step only where k is b. */
static void step_without_far(uint32_t n, uint32_t k, uint32_t b)
{
    uint8_t table[LONGEST_TABLE];
    struct question q = step_question(n, k, b, servers_of(n, k) - 1, 0, 5, 15, table, cell_table_length(n, k, b));
    memset(table, TBEXLUM_PORT_UP, sizeof table);
    if (k > b) {
        DEMAND(refuses(q, TBEXLUM_REFUSED_BAD_LENGTH));
    } else {
        DEMAND(is_answered(lent(&q, 0)) && is_answered(lent(&q, 1)));
    }
}

static void step_cell_tables(void)
{
    each_hall(step_without_far);
}

static void step_bounds(uint32_t n, uint32_t k, uint32_t b)
{
    uint8_t table[LONGEST_TABLE];
    uint32_t t = servers_of(n, k);
    size_t length = step_table_length(n, k, b);
    memset(table, TBEXLUM_PORT_UP, sizeof table);
    DEMAND(is_answered(step_question(n, k, b, t - 1, 0, 5, 15, table, length)));
    DEMAND(is_answered(step_question(n, k, b, 0, t - 1, 5, 15, table, length)));
    DEMAND(is_answered(with_proxy(step_question(n, k, b, 0, 1, 5, 15, table, length), t - 1)));
    DEMAND(refuses(step_question(n, k, b, t, 0, 5, 15, table, length), TBEXLUM_REFUSED_BAD_UID));
    DEMAND(refuses(step_question(n, k, b, 0, t, 5, 15, table, length), TBEXLUM_REFUSED_BAD_UID));
    DEMAND(refuses(with_proxy(step_question(n, k, b, 0, 1, 5, 15, table, length), t), TBEXLUM_REFUSED_BAD_UID));
    DEMAND(refuses(step_question(n, k, b, HUGE_WORD, 0, 5, 15, table, length), TBEXLUM_REFUSED_BAD_UID));
    DEMAND(refuses(step_question(n, k, b, 0, HUGE_WORD, 5, 15, table, length), TBEXLUM_REFUSED_BAD_UID));
    DEMAND(refuses(with_proxy(step_question(n, k, b, 0, 1, 5, 15, table, length), HUGE_WORD), TBEXLUM_REFUSED_BAD_UID));
}

static void step_uid_bounds(void)
{
    each_hall(step_bounds);
}

static void step_retry(void)
{
    uint8_t table[SMALL_TABLE];
    uint32_t retry;
    memset(table, TBEXLUM_PORT_UP, sizeof table);
    for (retry = 0; retry < 256; retry++) {
        struct question q = step_question(4, 1, 0, 0, 19, (uint8_t)retry, 15, table, sizeof table);
        struct question at_end = step_question(4, 1, 0, 0, 0, (uint8_t)retry, 15, table, sizeof table);
        if (retry <= TBEXLUM_MOST_RETRY) {
            DEMAND(answers_step(q, TBEXLUM_FORWARDED, 3, packet_of(19, 0, 0, retry, 14), 0));
        } else {
            DEMAND(refuses(q, TBEXLUM_REFUSED_BAD_RETRY));
            DEMAND(refuses_once(at_end, TBEXLUM_REFUSED_BAD_RETRY));
        }
    }
}

static void step_ttl(void)
{
    uint8_t table[SMALL_TABLE];
    uint32_t ttl;
    memset(table, TBEXLUM_PORT_UP, sizeof table);
    for (ttl = 1; ttl < 256; ttl++) {
        struct question q = step_question(4, 1, 0, 0, 19, 5, (uint8_t)ttl, table, sizeof table);
        DEMAND(answers_step(q, TBEXLUM_FORWARDED, 3, packet_of(19, 0, 0, 5, ttl - 1), 0));
    }
}

static void step_order(void)
{
    uint8_t table[SMALL_TABLE];
    struct question q = with_proxy(with_count(step_question(9, 4, 5, HUGE_WORD, HUGE_WORD, 255, 255, NULL, 0), 2), HUGE_WORD);
    memset(table, TBEXLUM_PORT_UP, sizeof table);
    DEMAND(ask(&q, NULL, 0) == TBEXLUM_REFUSED_BAD_HALL);
    q.n = 4;
    q.k = 1;
    q.b = 0;
    DEMAND(ask(&q, NULL, 0) == TBEXLUM_REFUSED_BAD_HALL);
    q.count = 1;
    DEMAND(ask(&q, NULL, 0) == TBEXLUM_REFUSED_BAD_LENGTH);
    q.bytes = table;
    q.length = sizeof table;
    DEMAND(ask(&q, NULL, 0) == TBEXLUM_REFUSED_BAD_UID);
    q.from = 0;
    DEMAND(ask(&q, NULL, 0) == TBEXLUM_REFUSED_BAD_UID);
    q.to = 19;
    DEMAND(ask(&q, NULL, 0) == TBEXLUM_REFUSED_BAD_UID);
    q.proxy = 19;
    DEMAND(ask(&q, NULL, 0) == TBEXLUM_REFUSED_BAD_RETRY);
    q.retry = 15;
    DEMAND(ask(&q, NULL, 0) == TBEXLUM_REFUSED_SHORT_ROOM);
    DEMAND(is_answered(q));
}

/* What a step answers. */
struct stepped {
    uint32_t ending, next, reroutes;
    struct packet packet;
};

static struct stepped stepped_of(const uint8_t *room)
{
    struct stepped a;
    a.ending = tbexlum_word_at(room, TBEXLUM_STEP_ENDING_AT);
    a.next = tbexlum_word_at(room, TBEXLUM_STEP_NEXT_AT);
    a.reroutes = tbexlum_word_at(room, TBEXLUM_STEP_REROUTES_AT);
    a.packet = packet_of(tbexlum_word_at(room, TBEXLUM_STEP_DST_AT), tbexlum_word_at(room, TBEXLUM_STEP_HAS_PROXY_AT),
                         tbexlum_word_at(room, TBEXLUM_STEP_PROXY_AT), tbexlum_word_at(room, TBEXLUM_STEP_RETRY_AT),
                         tbexlum_word_at(room, TBEXLUM_STEP_TTL_AT));
    return a;
}

/* A step at a server over the table that the library takes for it from the hall table. An ending that is none tells that a call refused. */
static struct stepped step_over(uint32_t n, uint32_t k, uint32_t b, uint32_t count, const uint8_t *hall_table, uint32_t uid,
                                struct packet p)
{
    uint8_t table[TBEXLUM_STEP_TABLE_ROOM];
    uint8_t room[TBEXLUM_STEP_ROOM];
    memset(room, 255, sizeof room);
    if (tbexlum_step_table(n, k, b, count, hall_table, hall_table_length(n, k), uid, table, sizeof table) == TBEXLUM_ANSWERED) {
        tbexlum_step(n, k, b, count, uid, p.dst, p.has_proxy, p.proxy, (uint8_t)p.retry, (uint8_t)p.ttl, table,
                     step_table_length(n, k, b), room, sizeof room);
    }
    return stepped_of(room);
}

/* Whether steps over a hall table take a packet by these uids, from the first on, and end like this. */
static int passes_in(uint32_t n, uint32_t k, uint32_t b, uint32_t count, const uint8_t *hall_table, struct packet p, const uint32_t *uids,
                     size_t passed_uids, uint32_t ending, uint32_t reroutes)
{
    uint32_t made = 0;
    uint32_t uid = uids[0];
    size_t i;
    for (i = 0; i < passed_uids; i++) {
        struct stepped a = step_over(n, k, b, count, hall_table, uid, p);
        if (uid != uids[i] || a.ending != (i + 1 < passed_uids ? TBEXLUM_FORWARDED : ending)) {
            if (is_good) {
                printf("n %" PRIu32 ", k %" PRIu32 ", b %" PRIu32 ", count %" PRIu32 ", to %" PRIu32 ": place %zu has uid %" PRIu32
                       " and ending %" PRIu32 ", uid %" PRIu32 " is due\n",
                       n, k, b, count, p.dst, i, uid, a.ending, uids[i]);
            }
            return 0;
        }
        made += a.reroutes;
        uid = a.next;
        p = a.packet;
    }
    return made == reroutes;
}

/* The same in the hall n = 4, k = 1, for a packet from 0. */
static int passes(uint32_t b, const uint8_t *hall_table, uint32_t dst, uint8_t retry, uint8_t ttl, const uint32_t *uids,
                  size_t passed_uids, uint32_t ending, uint32_t reroutes)
{
    return passes_in(4, 1, b, 1, hall_table, packet_of(dst, 0, 0, retry, ttl), uids, passed_uids, ending, reroutes);
}

static void step_journeys(void)
{
    static const uint32_t straight[] = {0, 3, 16, 19};
    static const uint32_t rerouted[] = {0, 4, 7, 17, 19};
    static const uint32_t in_one_cell[] = {0, 2, 12, 15, 19};
    uint8_t table[40];
    memset(table, TBEXLUM_PORT_UP, sizeof table);
    DEMAND(passes(0, table, 19, 5, 3, straight, 4, TBEXLUM_DELIVERED, 0));
    DEMAND(passes(0, table, 19, 5, 2, straight, 3, TBEXLUM_DROP_TTL, 0));
    two_down(table, 2);
    DEMAND(passes(0, table, 19, 5, 15, rerouted, 5, TBEXLUM_DELIVERED, 1));
    DEMAND(passes(0, table, 19, 2, 15, rerouted, 5, TBEXLUM_DELIVERED, 1));
    DEMAND(passes(0, table, 19, 1, 15, rerouted, 1, TBEXLUM_DROP_RETRY, 0));
    DEMAND(passes(1, table, 19, 5, 15, in_one_cell, 5, TBEXLUM_DELIVERED, 0));
    two_down(table, 7);
    DEMAND(passes(0, table, 19, 5, 15, rerouted, 5, TBEXLUM_DELIVERED, 1));
    table[7] = TBEXLUM_PORT_UP; /* one broken strand: port 1 of 3 is up, port 1 of 16 is not */
    DEMAND(passes(0, table, 19, 5, 15, rerouted, 5, TBEXLUM_DELIVERED, 1));
    DEMAND(passes(0, table, 19, 1, 15, rerouted, 1, TBEXLUM_DROP_RETRY, 0));
    DEMAND(passes(1, table, 19, 5, 15, in_one_cell, 5, TBEXLUM_DELIVERED, 0));
    two_down(table, 3);
    table[33] = TBEXLUM_PORT_UP; /* the other strand */
    DEMAND(passes(0, table, 19, 5, 15, rerouted, 5, TBEXLUM_DELIVERED, 1));
    DEMAND(passes(1, table, 19, 5, 15, in_one_cell, 5, TBEXLUM_DELIVERED, 0));
}

/* Journeys of random packets over random hall tables, by the library's own tables of steps: each ends, and crosses only links whose ports
 * have code 1 at both ends in the hall table. */
static void step_random_journeys(void)
{
    static uint8_t hall_table[8192];
    uint32_t journeys = RANDOM_QUESTIONS / 4 + 400;
    uint32_t endings[6] = {0, 0, 0, 0, 0, 0};
    uint32_t levels[4] = {0, 0, 0, 0};
    uint32_t n = 0;
    uint32_t k = 0;
    uint32_t b = 0;
    uint32_t i;
    size_t byte;
    for (i = 0; i < journeys; i++) {
        struct stepped a;
        uint32_t uid;
        uint32_t ttl;
        if (i % 4 == 0) { /* another hall */
            uint32_t broken = 2u << random_below(6); /* one port of so many has any code */
            k = random_below(4);
            b = random_below(k == 0 ? 1 : 2);
            do {
                n = 2 + random_below(7);
            } while (hall_table_length(n, k) > sizeof hall_table);
            for (byte = 0; byte < hall_table_length(n, k); byte++) {
                hall_table[byte] = random_below(broken) == 0 ? (uint8_t)random_below(6) : (uint8_t)TBEXLUM_PORT_UP;
            }
        }
        uid = random_below(servers_of(n, k));
        a.packet = packet_of(random_below(servers_of(n, k)), random_below(4) == 0, random_below(servers_of(n, k)), random_below(16),
                             random_below(4) == 0 ? random_below(8) : 255);
        ttl = a.packet.ttl;
        do {
            uint32_t at = uid;
            uint32_t level;
            a = step_over(n, k, b, full_count(n, k), hall_table, at, a.packet);
            if (a.ending != TBEXLUM_FORWARDED) {
                break;
            }
            DEMAND(a.next < servers_of(n, k) && a.packet.ttl + 1 == ttl);
            if (!is_good) {
                break;
            }
            uid = a.next;
            ttl = a.packet.ttl;
            level = level_of(n, k, at, uid);
            DEMAND(are_joined(n, level, at, uid));
            DEMAND(code_of(k, hall_table, at, level) == TBEXLUM_PORT_UP);
            DEMAND(code_of(k, hall_table, uid, level) == TBEXLUM_PORT_UP);
            levels[level]++;
        } while (is_good);
        DEMAND(a.ending != TBEXLUM_FORWARDED && a.ending <= TBEXLUM_DELIVERED);
        DEMAND((a.ending == TBEXLUM_DELIVERED) == (uid == a.packet.dst));
        endings[a.ending % 6]++;
    }
    for (i = TBEXLUM_DROP_TTL; i <= TBEXLUM_DELIVERED; i++) {
        DEMAND(endings[i] > journeys / 100); /* the journeys are worth taking */
    }
    for (i = 0; i < 4; i++) {
        DEMAND(levels[i] > journeys / 20);
    }
}

/* ---- Any question ---- */

/* What each call returns besides 0: its refusals, or the other place. */
static const uint32_t returned[CALLS][8] = {
    /* ROUTE */ {TBEXLUM_REFUSED_BAD_HALL, TBEXLUM_REFUSED_BAD_UID, TBEXLUM_REFUSED_SHORT_ROOM},
    /* READ */
    {TBEXLUM_REFUSED_SHORT_FRAME, TBEXLUM_REFUSED_BAD_VERSION, TBEXLUM_REFUSED_BAD_DHL, TBEXLUM_REFUSED_BAD_FLAGS,
     TBEXLUM_REFUSED_BAD_PF, TBEXLUM_REFUSED_BAD_CHECKSUM, TBEXLUM_REFUSED_BAD_ADDRESS, TBEXLUM_REFUSED_SHORT_ROOM},
    /* PLACE */ {8},
    /* WRITE */ {TBEXLUM_REFUSED_BAD_RETRY, TBEXLUM_REFUSED_BAD_ADDRESS, TBEXLUM_REFUSED_SHORT_ROOM},
    /* TABLE */ {TBEXLUM_REFUSED_BAD_HALL, TBEXLUM_REFUSED_BAD_LENGTH, TBEXLUM_REFUSED_BAD_UID, TBEXLUM_REFUSED_SHORT_ROOM},
    /* STEP */
    {TBEXLUM_REFUSED_BAD_HALL, TBEXLUM_REFUSED_BAD_LENGTH, TBEXLUM_REFUSED_BAD_UID, TBEXLUM_REFUSED_BAD_RETRY,
     TBEXLUM_REFUSED_SHORT_ROOM},
};

/* Whether a call may return the number. */
static int may_return(enum call call, uint32_t number)
{
    size_t i;
    for (i = 0; i < 8; i++) {
        if (number == returned[call][i]) {
            return 1;
        }
    }
    return number == TBEXLUM_ANSWERED;
}

/* The most bytes that a call writes where it answers. */
static size_t most_written(const struct question *q)
{
    switch (q->call) {
    case ROUTE:
        return TBEXLUM_ROUTE_ROOM;
    case READ:
        return TBEXLUM_READ_ROOM;
    case PLACE:
        return 0;
    case WRITE:
        return q->has_proxy != 0 ? TBEXLUM_HEADER_WITH_PROXY_BYTES : TBEXLUM_HEADER_BYTES;
    case TABLE:
        return step_table_length(q->n, q->k, q->b);
    default:
        return TBEXLUM_STEP_ROOM;
    }
}

/* Frames and steps' tables of random questions. */
static uint8_t random_bytes[LONGEST_TABLE + BEYOND];

/* Damages a header: its version, its DHL, its flags, one byte, or all. */
static void damage(uint8_t *frame)
{
    size_t i;
    switch (random_below(5)) {
    case 0:
        frame[0] = (uint8_t)(random_below(16) * 16 + frame[0] % 16u);
        break;
    case 1:
        frame[0] = (uint8_t)(frame[0] / 16u * 16 + random_below(16));
        break;
    case 2:
        frame[8] = (uint8_t)(frame[8] / 16u * 16 + random_below(4));
        break;
    case 3:
        frame[random_below(24)] = (uint8_t)random_word();
        break;
    default:
        for (i = 0; i < 24; i++) {
            frame[i] = (uint8_t)random_word();
        }
    }
}

/* A count of a hall: one at which something turns, any, or one with which the DCell1 of this server is among the last that are fitted. */
static uint32_t random_count(uint32_t n, uint32_t k, uint32_t uid)
{
    uint32_t counts[MOST_COUNTS];
    size_t size = counts_of(n, k, counts);
    uint32_t full = full_count(n, k);
    uint32_t turn;
    switch (random_below(4)) {
    case 0:
        return counts[random_below((uint32_t)size)];
    case 1:
        return k < 2 ? 1 : random_below(full + 1);
    default:
        turn = k < 2 ? 0 : turn_of[n][k][uid / servers_of(n, 1)];
        return full - turn > 4 ? turn + 1 + random_below(4) : full;
    }
}

/* A question that is sound about as often as not. The hall is full in most of them. */
static struct question random_question(enum call call)
{
    int is_sound = random_below(2) == 0;
    int has_hall = call == ROUTE || call == TABLE || call == STEP;
    struct question q = no_question(call);
    uint32_t limit;
    size_t i;
    q.n = is_sound ? 2 + random_below(7) : random_number(10);
    q.k = is_sound ? random_below(4) : random_number(5);
    q.b = is_sound ? random_below(q.k == 0 ? 1 : 2) : random_number(3);
    q.count = is_sound || random_below(2) == 0 ? full_count(q.n, q.k) : random_number(10);
    limit = has_hall ? servers_of(q.n, is_sound ? q.k : 0) : 2147483648u;
    q.from = is_sound ? random_below(limit) : random_number(50);
    if (has_hall && is_sound && random_below(4) == 0) {
        q.count = random_count(q.n, q.k, q.from);
    }
    q.to = is_sound ? random_below(limit) : random_number(50);
    q.has_proxy = random_below(2) == 0 ? 0 : random_number(3);
    q.proxy = is_sound ? random_below(limit) : random_number(50);
    q.retry = (uint8_t)(is_sound ? random_below(16) : random_number(18));
    q.ttl = (uint8_t)random_number(20);
    q.protocol = (uint8_t)random_word();
    q.payload_length = (uint16_t)(is_sound ? random_below(40) : random_number(40));
    q.identification = random_word();
    if (call == TABLE) {
        size_t length = is_sound ? hall_table_length(q.n, q.k) : random_below(2) == 0 ? random_number(50) : 40;
        length = length <= LONGEST_HALL_TABLE ? length : LONGEST_HALL_TABLE;
        q = with_count(table_question_in_place(q.n, q.k, q.b, (int)random_below(2), length, q.from), q.count);
    }
    if (call == STEP) {
        q.bytes = random_bytes;
        q.length = is_sound ? step_table_length(q.n, q.k, q.b) : random_below(LONGEST_TABLE + BEYOND + 1);
        for (i = 0; i < q.length; i++) {
            random_bytes[i] = random_below(4) == 0 ? (uint8_t)random_word() : (uint8_t)TBEXLUM_PORT_UP;
        }
    }
    if (call == READ || call == PLACE) {
        q.bytes = random_bytes;
        q.length = header_of(&q, random_bytes) + q.payload_length + random_below(BEYOND);
        if (!is_sound) {
            damage(random_bytes);
            q.length = random_below(64);
        }
    }
    return q;
}

static void any_question(void)
{
    static const enum call calls[CALLS] = {ROUTE, READ, PLACE, WRITE, TABLE, STEP};
    uint32_t answered[CALLS] = {0, 0, 0, 0, 0, 0};
    uint32_t i;
    for (i = 0; i < RANDOM_QUESTIONS; i++) {
        struct question asked = random_question(calls[i % CALLS]);
        int back = (int)random_below(2);
        struct question q = lent(&asked, back);
        const uint8_t *paint = paints[random_below(2)];
        size_t length = random_below((uint32_t)(most_room(q.call) + BEYOND + 1));
        uint8_t *room = part(&rooms, back, length);
        size_t most;
        uint32_t number;
        memcpy(rooms.bytes, paint, rooms.size);
        number = ask(&q, room, length);
        most = number != TBEXLUM_ANSWERED ? 0 : most_written(&q);
        DEMAND(may_return(q.call, number));
        DEMAND(is_kept(paint, room, most < length ? most : length));
        DEMAND(is_as_lent(&q, &asked));
        answered[i % CALLS] += number == TBEXLUM_ANSWERED;
    }
    for (i = 0; i < CALLS; i++) {
        DEMAND(answered[i] > RANDOM_QUESTIONS / 80); /* the questions are worth asking */
    }
}

/* A read and its place, over the same random frames. */
static void any_place(void)
{
    uint32_t seen[FIELD_FAULTS + 1] = {0, 0, 0, 0, 0};
    uint32_t i;
    for (i = 0; i < RANDOM_QUESTIONS; i++) {
        struct question asked = random_question(READ);
        struct question q = lent(&asked, (int)random_below(2));
        uint8_t room[ANY_ROOM];
        uint32_t number = ask(&q, room, sizeof room);
        size_t fault = q.length < 20 ? FIELD_FAULTS : field_fault(q.bytes);
        size_t told = 0;
        while (told < FIELD_FAULTS && number != field_faults[told][0]) {
            told++;
        }
        DEMAND(told == fault);
        q.call = PLACE;
        DEMAND(ask(&q, NULL, 0) == (told < FIELD_FAULTS ? field_faults[told][1] : 0));
        seen[told]++;
    }
    for (i = 0; i <= FIELD_FAULTS; i++) {
        DEMAND(seen[i] > RANDOM_QUESTIONS / 500); /* the frames are worth asking about */
    }
}

/* ---- Steps over random tables: the port to the next server, and the far codes ---- */

/* The code of a port of a server in the table of its own cell, and the far code of its link of a level above b. */
static uint8_t code_in_cell(const struct question *q, uint32_t uid, uint32_t port)
{
    return q->bytes[uid % servers_of(q->n, q->b) * (q->k + 1) + port];
}

static uint8_t far_code(const struct question *q, uint32_t uid, uint32_t level)
{
    return q->bytes[far_at(q->n, q->k, q->b, uid % servers_of(q->n, q->b), level)];
}

static void step_ports(void)
{
    uint32_t levels[4] = {0, 0, 0, 0};
    uint32_t i;
    for (i = 0; i < RANDOM_QUESTIONS; i++) {
        struct question q = random_question(STEP);
        uint8_t room[TBEXLUM_STEP_ROOM];
        uint32_t next;
        uint32_t port;
        if (ask(&q, room, sizeof room) != TBEXLUM_ANSWERED) {
            continue;
        }
        if (q.k > 0 && random_below(4) != 0) { /* a link above the switch is seldom the first of a random route */
            q.to = neighbour_of(q.n, q.from, 1 + random_below(q.k));
            q.has_proxy = 0;
            DEMAND(ask(&q, room, sizeof room) == TBEXLUM_ANSWERED);
        }
        if (tbexlum_word_at(room, TBEXLUM_STEP_ENDING_AT) != TBEXLUM_FORWARDED) {
            continue;
        }
        next = tbexlum_word_at(room, TBEXLUM_STEP_NEXT_AT);
        port = level_of(q.n, q.k, q.from, next);
        DEMAND(are_joined(q.n, port, q.from, next));
        DEMAND(code_in_cell(&q, q.from, port) == TBEXLUM_PORT_UP);
        DEMAND((port <= q.b ? code_in_cell(&q, next, port) : far_code(&q, q.from, port)) == TBEXLUM_PORT_UP);
        DEMAND_OF(q, is_fitted(q.n, q.k, q.count, q.from) && is_fitted(q.n, q.k, q.count, next));
        levels[port]++;
    }
    for (i = 0; i < 4; i++) {
        DEMAND(levels[i] > RANDOM_QUESTIONS / 500); /* the questions are worth asking */
    }
}

/* The first link above b of a step's route: its near end, and its level. Answers whether there is one. */
static int first_link_above(const struct question *q, uint32_t *near, uint32_t *level)
{
    uint32_t goal = q->has_proxy != 0 && q->proxy != q->from ? q->proxy : q->to;
    uint8_t room[ANY_ROOM];
    size_t count = route_uids(q->n, q->k, q->from, goal, room);
    size_t i;
    for (i = 0; i + 1 < count; i++) {
        *near = tbexlum_word_at(room, TBEXLUM_ROUTE_UIDS_AT + i * TBEXLUM_WORD);
        *level = level_of(q->n, q->k, *near, tbexlum_word_at(room, TBEXLUM_ROUTE_UIDS_AT + (i + 1) * TBEXLUM_WORD));
        if (*level > q->b) {
            return 1;
        }
    }
    return 0;
}

/* A step that forwards without a reroute looks at one far code, that of the first link above b of its route: with any other codes in place
 * of all the others it answers the same, and with any code but 1 in place of this one it does not. */
static void step_one_far(void)
{
    uint32_t with_link = 0;
    uint32_t without_link = 0;
    uint32_t i;
    for (i = 0; i < RANDOM_QUESTIONS; i++) {
        struct question q = random_question(STEP);
        uint8_t before[TBEXLUM_STEP_ROOM];
        uint8_t after[TBEXLUM_STEP_ROOM];
        uint32_t near = 0;
        uint32_t level = 0;
        int is_above;
        size_t only;
        size_t at;
        if (ask(&q, before, sizeof before) != TBEXLUM_ANSWERED || tbexlum_word_at(before, TBEXLUM_STEP_ENDING_AT) != TBEXLUM_FORWARDED
            || tbexlum_word_at(before, TBEXLUM_STEP_REROUTES_AT) != 0) {
            continue;
        }
        is_above = first_link_above(&q, &near, &level);
        only = is_above ? far_at(q.n, q.k, q.b, near % servers_of(q.n, q.b), level) : q.length;
        for (at = cell_table_length(q.n, q.k, q.b); at < q.length; at++) {
            if (at != only) {
                random_bytes[at] = (uint8_t)random_below(6);
            }
        }
        DEMAND(ask(&q, after, sizeof after) == TBEXLUM_ANSWERED && memcmp(before, after, sizeof after) == 0);
        if (is_above) {
            DEMAND(random_bytes[only] == TBEXLUM_PORT_UP);
            random_bytes[only] = (uint8_t)(2 + random_below(255)); /* 2 to 255, or 0 */
            DEMAND(ask(&q, after, sizeof after) == TBEXLUM_ANSWERED);
            DEMAND(tbexlum_word_at(after, TBEXLUM_STEP_REROUTES_AT) != 0
                   || tbexlum_word_at(after, TBEXLUM_STEP_ENDING_AT) != TBEXLUM_FORWARDED);
        }
        with_link += is_above != 0;
        without_link += !is_above;
    }
    DEMAND(with_link > RANDOM_QUESTIONS / 100 && without_link > RANDOM_QUESTIONS / 100); /* the questions are worth asking */
}

/* ---- Halls that are not full ---- */

/* Each DCell1 of a hall has one turn, and docs/DRIVER.md works out the same one. */
static void fitted_turns(void)
{
    /* n = 2, k = 3: the first of each of 7 DCell2s; the others of each of these; an eighth DCell2, which is filled at once; the last. */
    static const uint32_t known[][3] = {
        {0, 0, 0}, {1, 1, 0}, {6, 6, 0}, {7, 0, 1}, {12, 0, 6}, {13, 1, 1}, {48, 6, 6}, {49, 7, 0}, {50, 7, 1}, {55, 7, 6}, {56, 8, 0},
        {300, 42, 6},
    };
    uint32_t n;
    uint32_t k;
    uint32_t i;
    for (n = 2; n <= 8; n++) {
        for (k = 2; k <= 3; k++) {
            uint32_t t1 = servers_of(n, 1);
            uint32_t full = full_count(n, k);
            DEMAND(full * t1 == servers_of(n, k));
            for (i = 0; i < full; i += STRIDE) {
                uint32_t turn = turn_of[n][k][i];
                DEMAND(turn < full && fitted_in_turn[n][k][turn] == i);
                DEMAND(turn_by_manual(n, k, i * t1) == turn && turn_by_manual(n, k, i * t1 + t1 - 1) == turn);
            }
        }
    }
    DEMAND(full_count(8, 3) == MOST_DCELL1S);
    for (i = 0; i < sizeof known / sizeof known[0]; i++) {
        DEMAND(fitted_in_turn[2][3][known[i][0]] == known[i][1] * 7 + known[i][2]);
    }
    for (i = 0; i < 7; i++) {
        DEMAND(fitted_in_turn[2][2][i] == i);
    }
}

/* A question of each call that has a hall, which is sound. */
static struct question sound_question(enum call call, uint32_t n, uint32_t k, uint32_t b)
{
    static uint8_t all_up[LONGEST_TABLE];
    uint32_t last = servers_of(n, k) - 1;
    memset(all_up, TBEXLUM_PORT_UP, sizeof all_up);
    switch (call) {
    case ROUTE:
        return route_question(n, k, b, 0, last);
    case TABLE:
        return table_question_in_place(n, k, b, 1, hall_table_length(n, k), last);
    default:
        return step_question(n, k, b, last, 0, 5, 15, all_up, step_table_length(n, k, b));
    }
}

/* Counts that a hall can have are answered, and all others are refused by 1, with a room of every length and before everything else. */
static void asks_count(enum call call, uint32_t n, uint32_t k, uint32_t b)
{
    struct question q = sound_question(call, n, k, b);
    uint32_t counts[MOST_COUNTS];
    size_t size = counts_of(n, k, counts);
    size_t i;
    for (i = 0; i < size; i++) {
        uint8_t room[ANY_ROOM];
        q.count = counts[i];
        DEMAND(is_number(&q, ask(&q, room, sizeof room), TBEXLUM_ANSWERED));
        DEMAND(tells(&q, 0, TBEXLUM_REFUSED_SHORT_ROOM, NULL, 0));
    }
    size = wrong_counts_of(n, k, counts);
    for (i = 0; i < size; i++) {
        struct question wrong;
        q.count = counts[i];
        DEMAND(refuses_once(q, TBEXLUM_REFUSED_BAD_HALL));
        wrong = q;
        wrong.bytes = NULL;
        wrong.length = 0;
        wrong.from = HUGE_WORD;
        wrong.retry = 255;
        DEMAND(refuses_once(wrong, TBEXLUM_REFUSED_BAD_HALL));
    }
    DEMAND(refuses(with_count(q, full_count(n, k) + 1), TBEXLUM_REFUSED_BAD_HALL));
    DEMAND(refuses(with_count(q, HUGE_WORD), TBEXLUM_REFUSED_BAD_HALL));
    DEMAND(k >= 2 || refuses(with_count(q, 0), TBEXLUM_REFUSED_BAD_HALL));
}

static void route_asks_count(uint32_t n, uint32_t k, uint32_t b)
{
    asks_count(ROUTE, n, k, b);
}

static void table_asks_count(uint32_t n, uint32_t k, uint32_t b)
{
    asks_count(TABLE, n, k, b);
}

static void step_asks_count(uint32_t n, uint32_t k, uint32_t b)
{
    asks_count(STEP, n, k, b);
}

static void route_counts(void)
{
    each_hall(route_asks_count);
}

static void table_counts(void)
{
    each_hall(table_asks_count);
}

static void step_counts(void)
{
    each_hall(step_asks_count);
}

/* The uids of servers that are not fitted are uids: with no DCell1 fitted, those below t(k) are answered and the others are refused by 2.
 * Tables have the lengths that they have in a full hall. */
static void empty_hall(uint32_t n, uint32_t k, uint32_t b)
{
    uint32_t t = servers_of(n, k);
    struct question route = with_count(sound_question(ROUTE, n, k, b), 0);
    struct question table = with_count(sound_question(TABLE, n, k, b), 0);
    struct question step = with_count(sound_question(STEP, n, k, b), 0);
    if (k < 2) {
        return;
    }
    DEMAND_OF(route, is_answered(route));
    DEMAND_OF(table, is_answered(table));
    DEMAND_OF(step, is_answered(step) && is_answered(with_proxy(step, t - 1)));
    DEMAND(refuses_once(with_proxy(step, t), TBEXLUM_REFUSED_BAD_UID));
    step.retry = 16;
    DEMAND(refuses_once(step, TBEXLUM_REFUSED_BAD_RETRY));
    step.to = t;
    DEMAND(refuses_once(step, TBEXLUM_REFUSED_BAD_UID));
    route.to = t;
    DEMAND(refuses_once(route, TBEXLUM_REFUSED_BAD_UID));
    table.from = t;
    DEMAND(refuses_once(table, TBEXLUM_REFUSED_BAD_UID));
    table.length--;
    DEMAND(refuses_once(table, TBEXLUM_REFUSED_BAD_LENGTH));
    step.length--;
    DEMAND(refuses_once(step, TBEXLUM_REFUSED_BAD_LENGTH));
}

static void empty_halls(void)
{
    each_hall(empty_hall);
}

/* A route is that of the full hall. */
static void route_any_count(uint32_t n, uint32_t k, uint32_t b)
{
    uint32_t counts[MOST_COUNTS];
    size_t size = counts_of(n, k, counts);
    size_t i;
    for (i = 0; i < RANDOM_QUESTIONS / 300; i++) {
        struct question q = route_question(n, k, b, random_below(servers_of(n, k)), random_below(servers_of(n, k)));
        uint8_t answer[ANY_ROOM];
        size_t uids = route_uids(n, k, q.from, q.to, answer);
        q.count = counts[i % size];
        DEMAND(tells(&q, TBEXLUM_ROUTE_ROOM, TBEXLUM_ANSWERED, answer, uids * TBEXLUM_WORD));
    }
}

static void route_any_counts(void)
{
    each_hall(route_any_count);
}

/* n = 2, k = 2, two of seven DCell1s: the servers 0 to 11 are fitted, and every code is 1. By level 2, server 0 is joined to 6 and server 1
 * to 12. */
static void part_table_known(void)
{
    static const uint8_t nothing[24] = {0};
    /* b = 1, the servers 6 to 11: the neighbours at level 2 are 0, 13, 19, 25, 31 and 37, and only 0 is fitted. */
    static const uint8_t of_7[] = {1, 1, 1, 1, 1, 0, 1, 1, 0, 1, 1, 0, 1, 1, 0, 1, 1, 0, 1, 0, 0, 0, 0, 0};
    uint8_t hall_table[126];
    uint8_t answer[ANY_ROOM];
    size_t size = bytes_of(worked_part_table, answer);
    memset(hall_table, TBEXLUM_PORT_UP, sizeof hall_table);
    DEMAND(size == 10);
    DEMAND(answers(with_count(table_question(2, 2, 0, hall_table, 126, 0), 2), answer, size));
    DEMAND(answers(with_count(table_question(2, 2, 0, hall_table, 126, 1), 2), answer, size));
    DEMAND(answers(with_count(table_question(2, 2, 1, hall_table, 126, 7), 2), of_7, sizeof of_7));
    DEMAND(answers(with_count(table_question(2, 2, 0, hall_table, 126, 12), 2), nothing, 10)); /* not fitted */
    DEMAND(answers(with_count(table_question(2, 2, 1, hall_table, 126, 41), 6), nothing, 24));
    DEMAND(answers(with_count(table_question(2, 2, 1, hall_table, 126, 0), 0), nothing, 24));
    DEMAND(answers(table_question(2, 2, 1, hall_table, 126, 41), hall_table, 24)); /* the full hall */
}

/* Every count and every server of small halls. */
static void part_tables_small(void)
{
    uint32_t k = 2;
    uint32_t n;
    uint32_t b;
    uint32_t count;
    uint32_t uid;
    for (n = 2; n <= 3; n++) {
        for (b = 0; b <= 1; b++) {
            for (count = 0; count <= full_count(n, k); count++) {
                for (uid = count % STRIDE; uid < servers_of(n, k); uid += STRIDE) {
                    DEMAND(tells_table(n, k, b, count, uid));
                }
            }
        }
    }
}

/* n = 2, k = 3: every count with a server of every DCell1, and every server with the counts between which it is fitted. */
static void part_tables_level_3(void)
{
    const uint8_t *hall_table = halls.bytes;
    size_t length = hall_table_length(2, 3);
    uint32_t b;
    uint32_t count;
    uint32_t uid;
    for (b = 0; b <= 1; b++) {
        for (count = 0; count <= full_count(2, 3); count += STRIDE) {
            for (uid = count % 6; uid < 1806; uid += 6) { /* a server of each DCell1 */
                struct question q = with_count(table_question(2, 3, b, hall_table, length, uid), count);
                uint8_t answer[ANY_ROOM];
                uint8_t room[ANY_ROOM];
                size_t size = step_table_of(2, 3, b, count, hall_table, uid, answer);
                DEMAND(is_number(&q, ask(&q, room, size), TBEXLUM_ANSWERED) && is_answer(&q, room, answer, size));
            }
        }
        for (uid = 0; uid < 1806; uid += STRIDE) { /* with the last count with which it is not fitted, and the first with which it is */
            count = turn_of[2][3][uid / 6];
            DEMAND(!is_fitted(2, 3, count, uid) && is_fitted(2, 3, count + 1, uid));
            DEMAND(tells_table(2, 3, b, count, uid));
            DEMAND(tells_table(2, 3, b, count + 1, uid));
        }
    }
}

/* Every hall, at the counts at which something turns: the DCell1 that was fitted last, the one that is next, servers that these are joined
 * to, and any. */
static void part_tables(uint32_t n, uint32_t k, uint32_t b)
{
    uint32_t counts[MOST_COUNTS];
    size_t size = counts_of(n, k, counts);
    uint32_t full = full_count(n, k);
    uint32_t t1 = servers_of(n, 1);
    size_t i;
    uint32_t j;
    if (k < 2) {
        return;
    }
    for (i = 0; i < size; i++) {
        for (j = 0; j <= RANDOM_QUESTIONS / 12000; j++) {
            uint32_t turn = counts[i] == 0 ? 0 : counts[i] - 1;
            uint32_t last = fitted_in_turn[n][k][turn] * t1 + random_below(t1);
            uint32_t next = fitted_in_turn[n][k][turn + 1 < full ? turn + 1 : turn] * t1 + random_below(t1);
            DEMAND(tells_table(n, k, b, counts[i], last));
            DEMAND(tells_table(n, k, b, counts[i], next));
            DEMAND(tells_table(n, k, b, counts[i], neighbour_of(n, last, 2 + random_below(k - 1))));
            DEMAND(tells_table(n, k, b, counts[i], neighbour_of(n, next, 2 + random_below(k - 1))));
            DEMAND(tells_table(n, k, b, counts[i], random_below(servers_of(n, k))));
        }
    }
}

static void part_tables_each_hall(void)
{
    each_hall(part_tables);
}

/* n = 2, k = 2, b = 0, two of seven DCell1s: server 1 has a packet to 12, its neighbour at level 2, which is not fitted. */
static void part_step_known(void)
{
    uint8_t table[10];
    uint8_t answer[ANY_ROOM];
    struct question q = with_count(step_question(2, 2, 0, 1, 12, 5, 15, table, sizeof table), 2);
    memset(table, TBEXLUM_PORT_UP, sizeof table);
    DEMAND(bytes_of(worked_part_step, answer) == TBEXLUM_STEP_ROOM);
    DEMAND(answers(q, answer, TBEXLUM_STEP_ROOM));
    DEMAND(answers_step(q, TBEXLUM_FORWARDED, 0, packet_of(12, 1, 6, 4, 14), 1));
    bytes_of(worked_part_table, table); /* the table as the library writes it gives the same answer */
    DEMAND(answers(q, answer, TBEXLUM_STEP_ROOM));
    memset(table, TBEXLUM_PORT_UP, sizeof table);
    DEMAND(ends(with_count(q, 1), TBEXLUM_DROP_PROXY, 0)); /* neither 6 nor 12 is fitted */
    DEMAND(ends(with_count(q, 0), TBEXLUM_DROP_PROXY, 0));
    DEMAND(answers_step(with_count(q, 3), TBEXLUM_FORWARDED, 12, packet_of(12, 0, 0, 5, 14), 0));
    DEMAND(answers_step(with_count(q, 7), TBEXLUM_FORWARDED, 12, packet_of(12, 0, 0, 5, 14), 0));
    table[8] = 3; /* far codes count as they stand: that of server 1 at level 1 plays no part, and that of server 0 at level 2 does */
    DEMAND(answers(q, answer, TBEXLUM_STEP_ROOM));
    table[7] = 3;
    DEMAND(ends(q, TBEXLUM_DROP_PROXY, 0));
}

static void part_journeys_known(void)
{
    /* n = 2, k = 2, two of seven DCell1s: 12 is not fitted, and its packet goes to and fro between the two until its retry is spent. */
    static const uint32_t lost[] = {1, 0, 6, 0, 6, 0};
    static const uint32_t inside[] = {1, 0, 6, 7};
    /* n = 2, k = 3, 50 of 301 DCell1s: of the eighth DCell2 the servers 294 to 299 are fitted. */
    static const uint32_t straight[] = {252, 258, 300, 294};
    static const uint32_t stuck[] = {252, 258};
    static const uint32_t back[] = {294, 300, 258, 252};
    static const uint32_t round[] = {294, 6, 0, 1, 4, 5, 252};
    static uint8_t table[7224];
    uint32_t b;
    memset(table, TBEXLUM_PORT_UP, sizeof table);
    DEMAND(passes_in(2, 2, 0, 2, table, packet_of(12, 0, 0, 5, 15), lost, 6, TBEXLUM_DROP_RETRY, 4));
    DEMAND(passes_in(2, 2, 0, 2, table, packet_of(12, 0, 0, 5, 4), lost, 5, TBEXLUM_DROP_TTL, 3));
    DEMAND(passes_in(2, 2, 0, 2, table, packet_of(7, 0, 0, 5, 3), inside, 4, TBEXLUM_DELIVERED, 0));
    for (b = 0; b <= 1; b++) {
        DEMAND(passes_in(2, 3, b, 301, table, packet_of(294, 0, 0, 5, 3), straight, 4, TBEXLUM_DELIVERED, 0));
        DEMAND(passes_in(2, 3, b, 51, table, packet_of(294, 0, 0, 5, 3), straight, 4, TBEXLUM_DELIVERED, 0));
        DEMAND(passes_in(2, 3, b, 50, table, packet_of(294, 0, 0, 5, 15), stuck, 2, TBEXLUM_DROP_PROXY, 0));
        DEMAND(passes_in(2, 3, b, 301, table, packet_of(252, 0, 0, 5, 3), back, 4, TBEXLUM_DELIVERED, 0));
        DEMAND(passes_in(2, 3, b, 51, table, packet_of(252, 0, 0, 5, 3), back, 4, TBEXLUM_DELIVERED, 0));
        DEMAND(passes_in(2, 3, b, 50, table, packet_of(252, 0, 0, 5, 6), round, 7, TBEXLUM_DELIVERED, 1));
        DEMAND(passes_in(2, 3, b, 49, table, packet_of(252, 0, 0, 5, 15), back, 1, TBEXLUM_DROP_PROXY, 0)); /* from one not fitted */
    }
}

/* At a server that is not fitted no link is usable, whatever its codes are. */
static void unfitted_steps(uint32_t n, uint32_t k, uint32_t b)
{
    uint32_t counts[] = {0, 1, full_count(n, k) - 1};
    uint32_t last = servers_of(n, k) - 1; /* of the DCell1 that is fitted last */
    size_t i;
    if (k < 2) {
        return;
    }
    for (i = 0; i < sizeof counts / sizeof counts[0]; i++) {
        struct question q = with_count(sound_question(STEP, n, k, b), counts[i]);
        struct question to_own = q;
        DEMAND(q.from == last && q.to == 0 && !is_fitted(n, k, counts[i], last));
        to_own.to = last - 1; /* a server of its own cell */
        q.ttl = 0;
        DEMAND(ends_once(q, TBEXLUM_DROP_TTL, 0));
        q.to = last;
        DEMAND(ends_once(q, TBEXLUM_DELIVERED, 0));
        q.to = 0;
        q.ttl = 255;
        DEMAND(ends_once(to_own, TBEXLUM_DROP_ROUTE, 0));
        DEMAND(ends_once(with_proxy(to_own, last - 1), TBEXLUM_DROP_ROUTE, 0));
        DEMAND(ends_once(with_proxy(to_own, last), TBEXLUM_DROP_ROUTE, 0));
        for (q.retry = 0; q.retry <= TBEXLUM_MOST_RETRY; q.retry++) {
            uint32_t ending = q.retry <= 1 ? TBEXLUM_DROP_RETRY : TBEXLUM_DROP_PROXY;
            DEMAND(ends_once(q, ending, 0));
            DEMAND(ends_once(with_proxy(q, last), ending, 0)); /* arrived */
            to_own.retry = q.retry;
            DEMAND(ends_once(with_proxy(to_own, 0), ending, 0));
            /* A proxy in the own cell is cleared by one reroute, and then there is no other. */
            DEMAND(ends_once(with_proxy(q, last - 1), q.retry <= 2 ? TBEXLUM_DROP_RETRY : TBEXLUM_DROP_PROXY, q.retry >= 2));
        }
    }
}

static void part_steps_unfitted(void)
{
    each_hall(unfitted_steps);
}

/* n = 2, k = 2, every port up: each step from each server to each. Where both are fitted, it answers as in the full hall, since a route of
 * a DCell2 stays in the DCell1s of its ends. No step goes to or from a server that is not fitted. */
static void part_steps_all_up(void)
{
    static uint8_t table[24];
    uint32_t b;
    uint32_t count;
    uint32_t uid;
    uint32_t dst;
    memset(table, TBEXLUM_PORT_UP, sizeof table);
    for (b = 0; b <= 1; b++) {
        for (count = 0; count <= 7; count++) {
            for (uid = 0; uid < 42; uid++) {
                for (dst = 0; dst < 42; dst++) {
                    struct question full = step_question(2, 2, b, uid, dst, 5, 15, table, step_table_length(2, 2, b));
                    struct question q = with_count(full, count);
                    uint8_t answer[TBEXLUM_STEP_ROOM];
                    uint8_t room[TBEXLUM_STEP_ROOM];
                    struct stepped a;
                    DEMAND(is_number(&q, ask(&q, room, sizeof room), TBEXLUM_ANSWERED));
                    DEMAND(is_number(&full, ask(&full, answer, sizeof answer), TBEXLUM_ANSWERED));
                    if (is_fitted(2, 2, count, uid) && is_fitted(2, 2, count, dst)) {
                        DEMAND(is_answer(&q, room, answer, sizeof answer));
                    }
                    a = stepped_of(room);
                    DEMAND_OF(q, (a.ending == TBEXLUM_DELIVERED) == (uid == dst));
                    DEMAND_OF(q, a.ending != TBEXLUM_FORWARDED || (is_fitted(2, 2, count, uid) && is_fitted(2, 2, count, a.next)));
                }
            }
        }
    }
}

/* In a full hall with every port up each step forwards without a reroute, and with b = 0 along the route. The servers of the DCell1 that is
 * fitted last take part, and those that they are joined to. */
static void full_steps(uint32_t n, uint32_t k, uint32_t b)
{
    struct question q = sound_question(STEP, n, k, b);
    uint32_t t = servers_of(n, k);
    uint32_t last = k == 0 ? t : servers_of(n, 1);
    uint32_t i;
    for (i = 0; i < RANDOM_QUESTIONS / 300 + 20; i++) {
        uint8_t route[ANY_ROOM];
        uint8_t room[TBEXLUM_STEP_ROOM];
        struct stepped a;
        q.from = i % 4 == 0 ? t - 1 - random_below(last) : random_below(t);
        q.to = i % 4 == 1 ? t - 1 - random_below(last) : random_below(t);
        if (i % 4 == 2 && k >= 2) {
            q.to = t - 1 - random_below(last);
            q.from = neighbour_of(n, q.to, 2 + random_below(k - 1));
        }
        if (q.from == q.to) {
            continue;
        }
        DEMAND(is_number(&q, ask(&q, room, sizeof room), TBEXLUM_ANSWERED) && route_uids(n, k, q.from, q.to, route) >= 2);
        a = stepped_of(room);
        DEMAND_OF(q, a.ending == TBEXLUM_FORWARDED && a.reroutes == 0 && a.packet.has_proxy == 0 && a.packet.retry == q.retry);
        DEMAND_OF(q, b != 0 || a.next == tbexlum_word_at(route, TBEXLUM_ROUTE_UIDS_AT + TBEXLUM_WORD));
        DEMAND_OF(q, i % 4 != 2 || k < 2 || a.next == q.to);
    }
}

static void full_steps_each_hall(void)
{
    each_hall(full_steps);
}

/* Puts 0 for the codes of the cell, or for the far codes, of a port whose own server or far server is not fitted. */
static void count_codes(const struct question *q, uint8_t *table, int is_far)
{
    uint32_t cell = servers_of(q->n, q->b);
    uint32_t first = q->from - q->from % cell;
    uint32_t server;
    uint32_t port;
    for (server = 0; server < cell; server++) {
        for (port = is_far ? q->b + 1 : 0; port <= q->k; port++) {
            if (!is_port_fitted(q->n, q->k, q->count, first + server, port)) {
                table[is_far ? far_at(q->n, q->k, q->b, server, port) : server * (q->k + 1) + port] = 0;
            }
        }
    }
}

/* A step in a hall that is not full, over codes of which one of `broken` is any. */
static struct question random_part_step(uint8_t *table, uint32_t broken)
{
    uint32_t n = 2 + random_below(7);
    uint32_t k = 2 + random_below(2);
    uint32_t b = random_below(2);
    size_t length = step_table_length(n, k, b);
    uint32_t t = servers_of(n, k);
    struct question q;
    size_t i;
    for (i = 0; i < length; i++) {
        table[i] = random_below(broken) == 0 ? (uint8_t)random_below(6) : (uint8_t)TBEXLUM_PORT_UP;
    }
    q = step_question(n, k, b, random_below(t), random_below(t), (uint8_t)random_below(16), (uint8_t)(1 + random_below(255)), table,
                      length);
    q.count = random_count(n, k, q.from);
    if (random_below(2) == 0) { /* to a server that is near, or that is fitted */
        q.to = random_below(2) == 0 || q.count == 0 ? neighbour_of(n, q.from, 1 + random_below(k)) : random_fitted(n, k, q.count);
    }
    return random_below(4) == 0 ? with_proxy(q, random_below(t)) : q;
}

/* A step in a hall that is not full answers what the full hall answers over the codes as they count. It makes no difference whether the
 * codes that count as 0 are 0 in the table that it is lent, nor whether the far codes of the same links are. */
static void part_steps_counted(void)
{
    uint8_t table[LONGEST_TABLE];
    uint32_t changed = 0;
    uint32_t forwarded = 0;
    uint32_t i;
    for (i = 0; i < RANDOM_QUESTIONS; i++) {
        struct question q = random_part_step(table, 2u << random_below(6));
        struct question full = with_count(q, full_count(q.n, q.k));
        uint8_t answer[TBEXLUM_STEP_ROOM];
        uint8_t room[TBEXLUM_STEP_ROOM];
        int is_far;
        DEMAND(is_number(&q, ask(&q, answer, sizeof answer), TBEXLUM_ANSWERED));
        DEMAND(is_number(&full, ask(&full, room, sizeof room), TBEXLUM_ANSWERED));
        changed += memcmp(room, answer, sizeof answer) != 0;
        forwarded += stepped_of(answer).ending == TBEXLUM_FORWARDED && q.count < full.count;
        for (is_far = 0; is_far < 2; is_far++) {
            count_codes(&q, table, is_far);
            DEMAND(is_number(&full, ask(&full, room, sizeof room), TBEXLUM_ANSWERED) && is_answer(&q, answer, room, sizeof room));
            DEMAND(is_number(&q, ask(&q, room, sizeof room), TBEXLUM_ANSWERED) && is_answer(&q, room, answer, sizeof room));
        }
    }
    DEMAND(changed > RANDOM_QUESTIONS / 20 && forwarded > RANDOM_QUESTIONS / 20); /* the questions are worth asking */
}

/* Journeys in halls that are not full, by the library's own tables of steps: each ends, within its TTL, and crosses only links whose ports
 * have code 1 at both ends and whose servers are both fitted. */
static void part_journeys(void)
{
    static uint8_t hall_table[8192];
    uint32_t journeys = RANDOM_QUESTIONS / 4 + 400;
    uint32_t endings[6] = {0, 0, 0, 0, 0, 0};
    uint32_t levels[4] = {0, 0, 0, 0};
    uint32_t turned_back = 0;
    uint32_t i;
    size_t byte;
    struct question q = step_question(2, 2, 0, 0, 0, 0, 0, NULL, 0);
    for (i = 0; i < journeys; i++) {
        struct stepped a;
        uint32_t links = 0;
        if (i % 4 == 0) { /* another hall */
            uint32_t broken = 2u << random_below(8);
            uint32_t k = 2 + random_below(2);
            do {
                q = step_question(2 + random_below(7), k, random_below(2), 0, 0, 0, 0, NULL, 0);
            } while (hall_table_length(q.n, k) > sizeof hall_table);
            for (byte = 0; byte < hall_table_length(q.n, q.k); byte++) {
                hall_table[byte] = random_below(broken) == 0 ? (uint8_t)random_below(6) : (uint8_t)TBEXLUM_PORT_UP;
            }
            q.count = random_below(full_count(q.n, q.k));
        }
        q.from = q.count == 0 || random_below(8) == 0 ? random_below(servers_of(q.n, q.k)) : random_fitted(q.n, q.k, q.count);
        q.to = q.count == 0 || random_below(4) == 0 ? random_below(servers_of(q.n, q.k)) : random_fitted(q.n, q.k, q.count);
        if (random_below(8) == 0) { /* to the same switch */
            q.to = q.from - q.from % q.n + random_below(q.n);
        }
        q.has_proxy = random_below(4) == 0;
        q.proxy = random_below(servers_of(q.n, q.k));
        q.retry = (uint8_t)random_below(16);
        q.ttl = (uint8_t)(random_below(4) == 0 ? random_below(8) : 255);
        a.packet = packet_in(&q);
        for (;;) {
            uint32_t level;
            a = step_over(q.n, q.k, q.b, q.count, hall_table, q.from, a.packet);
            if (a.ending != TBEXLUM_FORWARDED) {
                break;
            }
            links++;
            DEMAND_OF(q, a.next < servers_of(q.n, q.k) && links <= q.ttl && a.packet.ttl + links == q.ttl);
            if (!is_good) {
                return;
            }
            level = level_of(q.n, q.k, q.from, a.next);
            DEMAND_OF(q, are_joined(q.n, level, q.from, a.next));
            DEMAND_OF(q, is_fitted(q.n, q.k, q.count, q.from) && is_fitted(q.n, q.k, q.count, a.next));
            DEMAND_OF(q, code_of(q.k, hall_table, q.from, level) == TBEXLUM_PORT_UP);
            DEMAND_OF(q, code_of(q.k, hall_table, a.next, level) == TBEXLUM_PORT_UP);
            levels[level]++;
            q.from = a.next;
        }
        DEMAND_OF(q, a.ending <= TBEXLUM_DELIVERED && (a.ending == TBEXLUM_DELIVERED) == (q.from == q.to));
        DEMAND_OF(q, a.ending != TBEXLUM_DROP_TTL || links == q.ttl);
        endings[a.ending % 6]++;
        turned_back += !is_fitted(q.n, q.k, q.count, q.to) && links > 0;
    }
    for (i = TBEXLUM_DROP_TTL; i <= TBEXLUM_DELIVERED; i++) {
        DEMAND(endings[i] > journeys / 100); /* the journeys are worth taking */
    }
    for (i = 0; i < 4; i++) {
        DEMAND(levels[i] > journeys / 20);
    }
    DEMAND(turned_back > journeys / 100);
}

/* ---- The header's version and helpers ---- */

#ifdef INSTALLED_VERSION
static void version_installed(void)
{
    char version[32];
    snprintf(version, sizeof version, "%u.%u", TBEXLUM_VERSION_MAJOR, TBEXLUM_VERSION_MINOR);
    DEMAND(strcmp(version, INSTALLED_VERSION) == 0);
}
#endif

static void helper_words(void)
{
    uint32_t i;
    int back;
    for (i = 0; i < 1000; i++) {
        uint32_t word = i < EDGES ? edges[i] : random_word();
        for (back = 0; back < 2; back++) {
            size_t at = random_below(BEYOND);
            uint8_t *bytes = part(&rooms, back, at + 4);
            memcpy(rooms.bytes, paints[back], rooms.size);
            tbexlum_put_word(bytes, at, word);
            DEMAND(bytes[at] == word / 16777216u && bytes[at + 1] == word / 65536u % 256u);
            DEMAND(bytes[at + 2] == word / 256u % 256u && bytes[at + 3] == word % 256u);
            DEMAND(is_kept(paints[back], bytes + at, 4));
            DEMAND(tbexlum_word_at(bytes, at) == word);
        }
    }
}

/* Whether `text` says each of the numbers below `count` by the text at its place, and all others, and those with none, by the last. */
static int says_each(const char *(*text)(uint32_t), const char *const *texts, uint32_t count, const char *other)
{
    uint32_t number;
    uint32_t i;
    for (number = 0; number < 300 + EDGES; number++) {
        i = number < 300 ? number : edges[number - 300];
        if (strcmp(text(i), i < count && texts[i] != NULL ? texts[i] : other) != 0) {
            return 0;
        }
    }
    return 1;
}

static void helper_refusals(void)
{
    static const char *const texts[] = {
        "answered, not refused",
        "n, k, b or the count of the hall is outside its range",
        "a uid is not below t(k)",
        NULL,
        "the table does not have the length that the call asks for",
        NULL,
        "the room is shorter than the answer",
        "the frame is shorter than 20 bytes, than DHL says, or than the payload length says",
        "the retry is above 15",
        "the checksum is not the one worked out",
        NULL,
        "an address is of the wrong kind, or a broadcast has a proxy",
        NULL,
        "the version is not 1",
        "DHL is neither 5 nor 6",
        "a flag other than PF is set",
        "PF and DHL disagree",
    };
    DEMAND(says_each(tbexlum_refusal_text, texts, sizeof texts / sizeof texts[0], "not a number that these calls return"));
}

static void helper_endings(void)
{
    static const char *const texts[] = {
        "forwarded",
        "drop 1: the TTL is 0",
        "drop 2: there is no route inside the cell",
        "drop 3: the retry is spent",
        "drop 4: there is no proxy to be had",
        "delivered",
    };
    DEMAND(says_each(tbexlum_ending_text, texts, sizeof texts / sizeof texts[0], "not an ending of a step"));
}

/* ---- Stack: calls on a painted stack, whose lowest changed byte tells how far they came ----
 * Not under the address sanitizer, which does not follow a change of stacks. The library's own frames are the same in every build. */
#ifndef __SANITIZE_ADDRESS__

#define DEEP_STACK 65536u

static uint8_t deep_stack[DEEP_STACK];
static ucontext_t outside;
static ucontext_t inside;
static const struct question *deep_question;

static void ask_on_deep_stack(void)
{
    static uint8_t room[ANY_ROOM];
    ask(deep_question, room, sizeof room);
}

static void ask_deep(const struct question *q)
{
    deep_question = q;
    getcontext(&inside);
    inside.uc_stack.ss_sp = deep_stack;
    inside.uc_stack.ss_size = sizeof deep_stack;
    inside.uc_link = &outside;
    makecontext(&inside, ask_on_deep_stack, 0);
    swapcontext(&outside, &inside);
}

/* The bytes of stack that were touched. */
static size_t depth(uint8_t paint)
{
    size_t i = 0;
    while (i < sizeof deep_stack && deep_stack[i] == paint) {
        i++;
    }
    return sizeof deep_stack - i;
}

/* Steps that reroute twice, and then search the local cell for a server that is not self: the deepest there are. Near ports above b are
 * up, so that every far code is looked at. */
static void ask_deep_steps(void)
{
    static const uint8_t small[] = {1, 1, 1, 1, 2, 1, 1, 1, 3, 1, 1, 3};
    static uint8_t large[LONGEST_TABLE];
    struct question q = with_proxy(step_question(4, 1, 0, 12, 18, 10, 200, small, sizeof small), 14);
    uint32_t server;
    DEMAND(answers_step(q, TBEXLUM_FORWARDED, 13, packet_of(18, 1, 6, 8, 199), 2));
    ask_deep(&q);
    for (server = 0; server < 72; server++) {
        uint8_t is_proxy = server == 5;
        large[4 * server] = is_proxy ? 2 : 1;
        large[4 * server + 1] = is_proxy ? 2 : 1;
        large[4 * server + 2] = 1;
        large[4 * server + 3] = 1;
        large[far_at(8, 3, 1, server, 2)] = 3;
        large[far_at(8, 3, 1, server, 3)] = server == 70 ? 1 : 3;
    }
    q = with_proxy(step_question(8, 3, 1, 0, 27630791u, 15, 255, large, sizeof large), 5);
    DEMAND(answers_step(q, TBEXLUM_FORWARDED, 7, packet_of(27630791u, 1, 373176, 13, 254), 2));
    ask_deep(&q);
    q.count--; /* not full: each of these servers is asked for */
    DEMAND(answers_step(q, TBEXLUM_FORWARDED, 7, packet_of(27630791u, 1, 373176, 13, 254), 2));
    ask_deep(&q);
}

/* The stack that calls take, with that of the function that makes them: the most over random questions and the deepest steps. */
static size_t stack_of(enum call call)
{
    static const uint8_t stack_paints[] = {0xA5, 0x5A};
    size_t most = 0;
    size_t i;
    uint32_t asked;
    for (i = 0; i < 2; i++) {
        memset(deep_stack, stack_paints[i], sizeof deep_stack);
        for (asked = 0; asked < RANDOM_QUESTIONS; asked++) {
            struct question q = random_question(call);
            ask_deep(&q);
        }
        if (call == STEP) {
            ask_deep_steps();
        }
        if (depth(stack_paints[i]) > most) {
            most = depth(stack_paints[i]);
        }
    }
    return most;
}

static void stack_fits(void)
{
    size_t route = stack_of(ROUTE);
    size_t read = stack_of(READ);
    size_t place = stack_of(PLACE);
    size_t write = stack_of(WRITE);
    size_t table = stack_of(TABLE);
    size_t step = stack_of(STEP);
    printf("bytes of stack: route %zu, read_header %zu, header_place %zu, write_header %zu, step_table %zu, step %zu\n", route, read, place,
           write, table, step);
    DEMAND(route <= ROUTE_STACK + CALLER_MORE);
    DEMAND(read <= READ_STACK + CALLER_MORE);
    DEMAND(place <= PLACE_STACK + CALLER_MORE);
    DEMAND(write <= WRITE_STACK + CALLER_MORE);
    DEMAND(table <= TABLE_STACK + CALLER_MORE);
    DEMAND(step <= STEP_STACK + CALLER_MORE);
}
#endif

int main(int count, char **words)
{
    setvbuf(stdout, NULL, _IOLBF, BUFSIZ); /* so that a test that kills the program leaves the lines before it */
    seed = count > 1 ? strtoull(words[1], NULL, 10) : 20240229u;
    printf("seed %" PRIu64 "\n", seed);
    seed = (seed + 1) * 0x9E3779B97F4A7C15u | 1u;
    prepare_pages();
    prepare_fitted();

    run("route: 5 to 11 of n = 2, k = 2 is 5 4 1 0 6 7 10 11, in rooms of every length", route_known);
    run("route: from a server to itself is that server", route_itself);
    run("route: the longest has 16 uids and fills the room that fits every route", route_longest);
    run("route: starts with x and ends at the first word that is y", route_ends);
    run("route: numbers that make no hall are refused by 1", route_halls);
    run("route: in every hall, uids from t(k) on are refused by 2", route_uid_bounds);
    run("route: refusals come in the order 1, 2, 6", route_order);

    run("write: the known header of 20 bytes, in rooms of every length", write_known);
    run("write: the known header of 24 bytes, for every flag but 0", write_known_proxy);
    run("write: a retry above 15 is refused by 8", write_retry);
    run("write: addresses of the wrong kind are refused by 11", write_addresses);
    run("write: refusals come in the order 8, 11, 6", write_order);

    run("read: the known header, in rooms of every length, with and without padding", read_known);
    run("read: each field stands at its offset, and the payload must be there", read_offsets);
    run("read: frames of every length below their header are refused by 7", read_short);
    run("read: the known refused frames, each with its number and its place", read_refused);
    run("read: of all first bytes and flags, all but two are refused by 13 to 16, each with its place", read_headers);
    run("read: every other checksum is refused by 9, and every turned bit is refused", read_checksums);
    run("read: FFFF where 0000 is due is refused by 9", read_zero_due);
    run("read: addresses of the wrong kind are refused by 11", read_addresses);
    run("read: of every set of faults, the first in the order 7, 13, 14, 15, 16, 7, 9, 11, 7, 6 decides", read_order);
    run("place: frames of every length have it from 20 bytes on, and 0 below", place_lengths);
    run("write and read: headers are those of the layout, and read back to their fields", header_both_ways);

    run("step table: the known table, in rooms of every length, for each server of the cell", table_known);
    run("step table: each code comes from its offset in the hall table, and with k = b there are no far codes", table_offsets);
    run("step table: the longest has 432 bytes and fills the room that fits every table", table_longest);
    run("step table: in every hall, each code is that of its port, and a room a byte short is refused by 6", table_each_hall);
    run("step table: numbers that make no hall are refused by 1", table_halls);
    run("step table: in every hall, hall tables of another length are refused by 4", table_hall_lengths);
    run("step table: in every hall, uids from t(k) on are refused by 2", table_uid_bounds);
    run("step table: refusals come in the order 1, 4, 2, 6", table_order);

    run("step: the known step, in rooms of every length", step_known);
    run("step: each word stands at its offset, a proxy cleared and another set", step_offsets);
    run("step: delivered, the packet as it came", step_delivered);
    run("step: drop 1, the TTL is 0", step_drop_ttl);
    run("step: drop 2, no route", step_drop_route);
    run("step: drop 3, the retry is spent", step_drop_retry);
    run("step: drop 4, no proxy", step_drop_proxy);
    run("step: of all 256 codes only 1 is up", step_codes);
    run("step: a link above b is not used where one of its ends, near or far, has any code but 1", step_strands);
    run("step: each far code is that of its own server and level", step_far_places);
    run("step: every flag but 0 is a proxy", step_flags);
    run("step: numbers that make no hall are refused by 1", step_halls);
    run("step: in every hall, tables of every other length are refused by 4", step_table_lengths);
    run("step: in every hall with k above b, the codes of the cell without far codes are refused by 4", step_cell_tables);
    run("step: in every hall, uids from t(k) on are refused by 2", step_uid_bounds);
    run("step: a retry above 15 is refused by 8, at the destination too", step_retry);
    run("step: every TTL above 0 is lowered by one", step_ttl);
    run("step: refusals come in the order 1, 4, 2, 8, 6", step_order);
    run("step: the known journeys, step by step", step_journeys);
    run("step: the port of the lowest level that holds both is up at both ends and leads to the next server", step_ports);
    run("step: without a reroute it looks at one far code, that of its route's first link above b", step_one_far);
    run("step table and step: random journeys end, and cross only links that are up at both ends", step_random_journeys);

    run("fitted: the paper's procedure gives each DCell1 one turn, which docs/DRIVER.md works out", fitted_turns);
    run("route: in every hall, the counts that it can have are answered, and all others are refused by 1", route_counts);
    run("step table: in every hall, the counts that it can have are answered, and all others are refused by 1", table_counts);
    run("step: in every hall, the counts that it can have are answered, and all others are refused by 1", step_counts);
    run("full: in every hall with every port up, a step forwards without a reroute, and with b = 0 along the route", full_steps_each_hall);
    run("not full: uids of servers that are not fitted are uids, and tables have their lengths", empty_halls);
    run("not full: a route is that of the full hall", route_any_counts);
    run("not full: the known tables of a step, in rooms of every length", part_table_known);
    run("not full: in small halls with k = 2, each code of a step's table is as it counts, with every count", part_tables_small);
    run("not full: in the hall n = 2, k = 3, each code of a step's table is as it counts, with every count", part_tables_level_3);
    run("not full: in every hall, each code of a step's table is as it counts, where something turns", part_tables_each_hall);
    run("not full: the known step, in rooms of every length", part_step_known);
    run("not full: the known journeys, step by step", part_journeys_known);
    run("not full: at a server that is not fitted, a step delivers or drops", part_steps_unfitted);
    run("not full: with every port up, a DCell2 forwards between fitted servers as if it were full", part_steps_all_up);
    run("not full: a step answers what the full hall answers over the codes as they count", part_steps_counted);
    run("not full: random journeys end within their TTL, and cross only links between fitted servers", part_journeys);

    run("read and place: any frame has the place of its number, and 0 where no field is at fault", any_place);
    run("all: any question gets a number of its call, and only the answer's bytes change", any_question);
#ifndef __SANITIZE_ADDRESS__
    run("all: the stack stays within what docs/DRIVER.md says", stack_fits);
#endif

#ifdef INSTALLED_VERSION
    run("header: its version is the one that is installed", version_installed);
#endif
    run("helpers: words are big-endian, and nothing else is read or written", helper_words);
    run("helpers: every refusal has its text, and every other number one text", helper_refusals);
    run("helpers: every ending has its text, and every other number one text", helper_endings);
    printf("%d passed, %d failed\n", passed, failed);
    return failed == 0 ? EXIT_SUCCESS : EXIT_FAILURE;
}
