/* The driver's calls: frame header, route, the table of a step and forwarding step, on plain numbers and bytes.
 *
 * A call that is lent a room returns TBEXLUM_ANSWERED and writes its answer to the start of the room, or returns the number of a refusal
 * and leaves the whole room as lent. Behind the answer the room is unchanged. tbexlum_header_place is lent no room: it returns its answer.
 * Any number may be passed. A slice is a pointer and its length in bytes; NULL may be passed with length 0. A room must not overlap the
 * frame or table of the same call.
 *
 * A hall is n servers on a switch, top level k, local level b and a count. The count is the number of DCells of level 1 that are fitted in
 * it: t(k) / t(1) in a full hall, and always 1 with k below 2.
 *
 * Answers of tbexlum_route, tbexlum_read_header and tbexlum_step are words: 32 bits, big-endian, at the offsets below. Those of
 * tbexlum_write_header and tbexlum_step_table are bytes. */
#ifndef TBEXLUM_H
#define TBEXLUM_H

#include <stddef.h>
#include <stdint.h>

#ifdef __cplusplus
extern "C" {
#endif

/* The version of the calls; bin/install writes it to tbexlum.pc. The major number rises where a driver written for the number before may
 * have to be changed, and the minor number where something was only added. */

#define TBEXLUM_VERSION_MAJOR 4u
#define TBEXLUM_VERSION_MINOR 0u

/* What a call that is lent a room returns. The numbers 3, 5, 10 and 12 belong to calls that a driver is not offered; the calls here never
 * return them. */

/* Not refused: the answer stands in the room. */
#define TBEXLUM_ANSWERED 0u
/* n, k, b or the count of a hall outside its range: n is 2 to 8, k is 0 to 3, b is 0 to the smaller of 1 and k. The count is 0 to
 * t(k) / t(1) with k of 2 or 3, and 1 with k below 2. */
#define TBEXLUM_REFUSED_BAD_HALL 1u
/* A uid that is not below t(k), the servers of the full hall. The uid of a server that is not fitted is not refused. */
#define TBEXLUM_REFUSED_BAD_UID 2u
/* A table that does not have the length that the call asks for: tbexlum_step_table is lent t(k) * (k + 1) bytes, and tbexlum_step
 * t(b) * (2 * k + 1 - b) bytes. */
#define TBEXLUM_REFUSED_BAD_LENGTH 4u
/* A room shorter than the answer. */
#define TBEXLUM_REFUSED_SHORT_ROOM 6u
/* A frame shorter than 20 bytes, than its DHL says, or than its payload length says. */
#define TBEXLUM_REFUSED_SHORT_FRAME 7u
/* A retry above TBEXLUM_MOST_RETRY, in a header to be written or a step. A read never returns it. */
#define TBEXLUM_REFUSED_BAD_RETRY 8u
/* A checksum that is not the one worked out. */
#define TBEXLUM_REFUSED_BAD_CHECKSUM 9u
/* An address of the wrong kind, or a broadcast with a proxy. */
#define TBEXLUM_REFUSED_BAD_ADDRESS 11u
/* A frame whose version is not 1; its place is byte 0. */
#define TBEXLUM_REFUSED_BAD_VERSION 13u
/* A frame whose DHL is neither 5 nor 6; its place is byte 0. */
#define TBEXLUM_REFUSED_BAD_DHL 14u
/* A frame with a flag other than PF; its place is byte 8. */
#define TBEXLUM_REFUSED_BAD_FLAGS 15u
/* A frame with PF and a DHL of 5, or without PF and with a DHL of 6; its place is byte 8. */
#define TBEXLUM_REFUSED_BAD_PF 16u

/* How a step ends: the word at TBEXLUM_STEP_ENDING_AT. */

/* The packet goes on to another server. */
#define TBEXLUM_FORWARDED 0u
/* Drop 1: the TTL is 0. */
#define TBEXLUM_DROP_TTL 1u
/* Drop 2: no route inside the local cell. */
#define TBEXLUM_DROP_ROUTE 2u
/* Drop 3: the retry is spent. */
#define TBEXLUM_DROP_RETRY 3u
/* Drop 4: no proxy is to be had. */
#define TBEXLUM_DROP_PROXY 4u
/* The packet is at its destination. */
#define TBEXLUM_DELIVERED 5u

/* Limits. */

/* The bytes of a word. */
#define TBEXLUM_WORD 4u
/* The one port code that counts as up; every other byte counts as not usable. A link is usable only where both of its ports are up and the
 * servers at both of its ends are fitted. */
#define TBEXLUM_PORT_UP 1u
/* The greatest retry of a packet. */
#define TBEXLUM_MOST_RETRY 15u
/* The uids of the longest route. */
#define TBEXLUM_MOST_UIDS 16u
/* The bytes of a frame's header without a proxy. */
#define TBEXLUM_HEADER_BYTES 20u
/* The bytes of a frame's header with a proxy. */
#define TBEXLUM_HEADER_WITH_PROXY_BYTES 24u

/* The answer of tbexlum_route: the uids in order, a word each, the last of them y. */

/* Where the first uid stands. */
#define TBEXLUM_ROUTE_UIDS_AT 0u
/* A room that every route fits in; a shorter route needs its own uids * TBEXLUM_WORD. */
#define TBEXLUM_ROUTE_ROOM 64u

/* The answer of tbexlum_read_header. */

/* The bytes of the header, 20 or 24; the payload starts there. */
#define TBEXLUM_READ_HEADER_BYTES_AT 0u
/* The protocol, 0 to 255. */
#define TBEXLUM_READ_PROTOCOL_AT 4u
/* The bytes of the payload; what is behind it is padding. */
#define TBEXLUM_READ_PAYLOAD_LENGTH_AT 8u
/* The identification. */
#define TBEXLUM_READ_IDENTIFICATION_AT 12u
/* The retry, 0 to TBEXLUM_MOST_RETRY. */
#define TBEXLUM_READ_RETRY_AT 16u
/* The TTL, 0 to 255. */
#define TBEXLUM_READ_TTL_AT 20u
/* The source, a server. */
#define TBEXLUM_READ_SOURCE_AT 24u
/* The destination, a server or a broadcast. */
#define TBEXLUM_READ_DESTINATION_AT 28u
/* 1 where there is a proxy, else 0. */
#define TBEXLUM_READ_HAS_PROXY_AT 32u
/* The proxy, 0 where there is none. */
#define TBEXLUM_READ_PROXY_AT 36u
/* The bytes of the answer. */
#define TBEXLUM_READ_ROOM 40u

/* The answer of tbexlum_step_table: the codes of the table, a byte each. */

/* A room that every step's table fits in; the table of a step needs its own t(b) * (2 * k + 1 - b) bytes. */
#define TBEXLUM_STEP_TABLE_ROOM 432u

/* The answer of tbexlum_step. */

/* The ending. */
#define TBEXLUM_STEP_ENDING_AT 0u
/* The uid to send to; 0 unless the packet is forwarded. */
#define TBEXLUM_STEP_NEXT_AT 4u
/* The destination of the packet to send on; where it is delivered or dropped, this and what follows is the packet as it came. */
#define TBEXLUM_STEP_DST_AT 8u
/* 1 where it has a proxy, else 0. */
#define TBEXLUM_STEP_HAS_PROXY_AT 12u
/* Its proxy, 0 where it has none. */
#define TBEXLUM_STEP_PROXY_AT 16u
/* Its retry, lowered by one for each reroute where it is forwarded. */
#define TBEXLUM_STEP_RETRY_AT 20u
/* Its TTL, lowered by one where it is forwarded. */
#define TBEXLUM_STEP_TTL_AT 24u
/* The reroutes of this step: how often it set or cleared a proxy by one. */
#define TBEXLUM_STEP_REROUTES_AT 28u
/* The bytes of the answer. */
#define TBEXLUM_STEP_ROOM 32u

/* The route without failures from x to y in the hall n, k, b, count. It is the route of the full hall, whatever is fitted.
 * Refusals in order: BAD_HALL, BAD_UID, SHORT_ROOM. */
uint32_t tbexlum_route(uint32_t n, uint32_t k, uint32_t b, uint32_t count, uint32_t x, uint32_t y, uint8_t *room, size_t room_length);

/* The header of a frame, read and checked.
 * Refusals in order: SHORT_FRAME (20 bytes), BAD_VERSION, BAD_DHL, BAD_FLAGS, BAD_PF, SHORT_FRAME (DHL), BAD_CHECKSUM, BAD_ADDRESS,
 * SHORT_FRAME (payload), SHORT_ROOM. */
uint32_t tbexlum_read_header(const uint8_t *frame, size_t frame_length, uint8_t *room, size_t room_length);

/* The place that goes with the number that tbexlum_read_header returns for this frame. For BAD_VERSION, BAD_DHL, BAD_FLAGS and BAD_PF it
 * is the offset in the frame of the byte in which the field at fault begins. For every other number and for an accepted frame it is 0.
 * There are no refusals. */
uint32_t tbexlum_header_place(const uint8_t *frame, size_t frame_length);

/* A header written to the start of the room, checksum included: 20 bytes where has_proxy is 0, else 24.
 * Where has_proxy is 0, proxy is not looked at.
 * Refusals in order: BAD_RETRY, BAD_ADDRESS, SHORT_ROOM. */
uint32_t tbexlum_write_header(uint8_t protocol, uint16_t payload_length, uint32_t identification, uint8_t retry, uint8_t ttl,
                              uint32_t source, uint32_t destination, uint32_t has_proxy, uint32_t proxy,
                              uint8_t *room, size_t room_length);

/* The table of a step at the server uid, taken from the hall table: t(k) * (k + 1) port codes, port i of server u at byte
 * u * (k + 1) + i. The table of a step has two parts:
 * - the t(b) * (k + 1) codes of the server's own DCell(b), port i of the cell's server j at byte j * (k + 1) + i;
 * - behind them the t(b) * (k - b) far codes. For each server of the cell in uid order, and within a server for each level i from b + 1
 *   to k, this is the code of the far port of its link of level i: port i of its neighbour at that level. That of the cell's server j
 *   is at byte t(b) * (k + 1) + j * (k - b) + (i - b - 1). Where k is b, there is none.
 * In both parts, the code of a port is written as 0 where its own server or its far server is not fitted. Port 0 has no far server.
 * Refusals in order: BAD_HALL, BAD_LENGTH (the hall table), BAD_UID, SHORT_ROOM. */
uint32_t tbexlum_step_table(uint32_t n, uint32_t k, uint32_t b, uint32_t count, const uint8_t *table, size_t table_length, uint32_t uid,
                            uint8_t *room, size_t room_length);

/* One forwarding step at the server uid, over the table of a step as tbexlum_step_table lays it out: t(b) * (2 * k + 1 - b) port codes.
 * A link is used only where its ports at both ends have the code TBEXLUM_PORT_UP. The code of a port of the server's own cell counts as 0
 * where its own server or its far server is not fitted, so that no link to such a server is used. Where has_proxy is 0, proxy is not
 * looked at.
 * Refusals in order: BAD_HALL, BAD_LENGTH, BAD_UID (uid, dst, proxy), BAD_RETRY, SHORT_ROOM. */
uint32_t tbexlum_step(uint32_t n, uint32_t k, uint32_t b, uint32_t count, uint32_t uid, uint32_t dst, uint32_t has_proxy, uint32_t proxy,
                      uint8_t retry, uint8_t ttl, const uint8_t *table, size_t table_length, uint8_t *room, size_t room_length);

/* Helpers. They are compiled with the driver and call nothing. */

/* The word at an offset of an answer or of a header. */
static inline uint32_t tbexlum_word_at(const uint8_t *bytes, size_t at)
{
    uint32_t word = bytes[at];
    word = word << 8 | bytes[at + 1];
    word = word << 8 | bytes[at + 2];
    return word << 8 | bytes[at + 3];
}

/* Writes a word at an offset. */
static inline void tbexlum_put_word(uint8_t *bytes, size_t at, uint32_t word)
{
    size_t i;
    for (i = TBEXLUM_WORD; i > 0; i--) {
        bytes[at + i - 1] = word & 255u;
        word >>= 8;
    }
}

/* What a returned number says; one text for all numbers that these calls never return. */
static inline const char *tbexlum_refusal_text(uint32_t number)
{
    switch (number) {
    case TBEXLUM_ANSWERED:
        return "answered, not refused";
    case TBEXLUM_REFUSED_BAD_HALL:
        return "n, k, b or the count of the hall is outside its range";
    case TBEXLUM_REFUSED_BAD_UID:
        return "a uid is not below t(k)";
    case TBEXLUM_REFUSED_BAD_LENGTH:
        return "the table does not have the length that the call asks for";
    case TBEXLUM_REFUSED_SHORT_ROOM:
        return "the room is shorter than the answer";
    case TBEXLUM_REFUSED_SHORT_FRAME:
        return "the frame is shorter than 20 bytes, than DHL says, or than the payload length says";
    case TBEXLUM_REFUSED_BAD_RETRY:
        return "the retry is above 15";
    case TBEXLUM_REFUSED_BAD_CHECKSUM:
        return "the checksum is not the one worked out";
    case TBEXLUM_REFUSED_BAD_ADDRESS:
        return "an address is of the wrong kind, or a broadcast has a proxy";
    case TBEXLUM_REFUSED_BAD_VERSION:
        return "the version is not 1";
    case TBEXLUM_REFUSED_BAD_DHL:
        return "DHL is neither 5 nor 6";
    case TBEXLUM_REFUSED_BAD_FLAGS:
        return "a flag other than PF is set";
    case TBEXLUM_REFUSED_BAD_PF:
        return "PF and DHL disagree";
    default:
        return "not a number that these calls return";
    }
}

/* What an ending says; one text for all numbers that are no ending. */
static inline const char *tbexlum_ending_text(uint32_t number)
{
    switch (number) {
    case TBEXLUM_FORWARDED:
        return "forwarded";
    case TBEXLUM_DROP_TTL:
        return "drop 1: the TTL is 0";
    case TBEXLUM_DROP_ROUTE:
        return "drop 2: there is no route inside the cell";
    case TBEXLUM_DROP_RETRY:
        return "drop 3: the retry is spent";
    case TBEXLUM_DROP_PROXY:
        return "drop 4: there is no proxy to be had";
    case TBEXLUM_DELIVERED:
        return "delivered";
    default:
        return "not an ending of a step";
    }
}

#ifdef __cplusplus
}
#endif

#endif
