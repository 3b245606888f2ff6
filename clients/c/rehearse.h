/* Functions to be copied that make the calls of toxicap.h, with room that grows until the answer fits; they compile as C and as C++. */
#ifndef TOXICAP_REHEARSE_H
#define TOXICAP_REHEARSE_H

#include <stdlib.h>
#include <string.h>
#include <toxicap.h>

/* Bytes one after another. */
typedef struct {
    uint8_t *bytes;
    size_t len;
} ToxicapText;

/* What toxicap.h says of a call's outputs. They are one block: free(answer.lens). */
typedef struct {
    uint8_t status;
    ToxicapSizes sizes;
    size_t *lens;
    uint8_t *captures, *reports;
} ToxicapAnswer;

/* Of a capture under scenarios, whose texts stand one after another in `scenarios`, each as long as `lens` says; hosts are lines NAME=ADDR.
   The status is never TOXICAP_NO_ROOM. If it is TOXICAP_REFUSED, `reports` has what is wrong and, after a line feed, what helps. */
TOXICAP_CHECKED
static inline ToxicapAnswer toxicap_answer(ToxicapText capture, ToxicapText scenarios, const size_t *lens, size_t count, const char *hosts,
                                           uint64_t seed)
{
    ToxicapInputs inputs = {capture.bytes, capture.len, scenarios.bytes, scenarios.len, lens, count, (const uint8_t *)hosts, strlen(hosts), seed};
    /* a first guess: a connection takes some 120 bytes of a report, and mostly 1,000 or more of the capture; 256 KiB at most */
    size_t each = 1024 + (capture.len < 2097152 ? capture.len / 8 : 262144);
    ToxicapAnswer it = {TOXICAP_NO_ROOM, {count * (capture.len + capture.len / 2) + 4096, count * each, 2 * count}, NULL, NULL, NULL};
    while (it.status == TOXICAP_NO_ROOM) {
        ToxicapSizes room = it.sizes;
        free(it.lens);
        it.lens = (size_t *)malloc(room.lens * sizeof *it.lens + room.captures + room.reports + 1);
        if (it.lens == NULL) {
            ToxicapAnswer none = {TOXICAP_NO_MEMORY, {0, 0, 0}, NULL, NULL, NULL};
            return none;
        }
        it.captures = (uint8_t *)(it.lens + room.lens);
        it.reports = it.captures + room.captures;
        it.status = toxicap_rehearse(&inputs, it.captures, room.captures, it.reports, room.reports, it.lens, room.lens, &it.sizes);
    }
    return it;
}

/* What each side of each connection receives, and when. It is one block: free(lines.connections). */
typedef struct {
    uint8_t status;
    ToxicapLinesSizes sizes;
    ToxicapConnection *connections;
    ToxicapChunk *chunks;
    uint8_t *bytes;
} ToxicapLines;

/* Of a capture under scenarios, as of `toxicap_answer`; the status is never TOXICAP_NO_ROOM. Each scenario has sizes.connections / count connections.
 * Bytes and chunks go on from one direction to the next:
 *
 *     const uint8_t *bytes = it.bytes;
 *     const ToxicapChunk *chunk = it.chunks;
 *     for (size_t i = 0; i < it.sizes.connections; i++)
 *         for (int is_down = 0; is_down < 2; is_down++) {
 *             const ToxicapDirection *way = is_down ? &it.connections[i].down : &it.connections[i].up;
 *             for (uint64_t k = 0, from = 0; k < way->chunks; from = chunk[k++].end)
 *                 .. at chunk[k].time come chunk[k].end - from bytes, at bytes + from ..
 *             bytes += way->bytes, chunk += way->chunks;
 *         }
 */
TOXICAP_CHECKED
static inline ToxicapLines toxicap_lines_of(ToxicapText capture, ToxicapText scenarios, const size_t *lens, size_t count, const char *hosts, uint64_t seed)
{
    ToxicapInputs inputs = {capture.bytes, capture.len, scenarios.bytes, scenarios.len, lens, count, (const uint8_t *)hosts, strlen(hosts), seed};
    /* a first guess: a record takes 70 bytes of the capture, and a connection mostly four records */
    size_t size = count * capture.len;
    ToxicapLines it = {TOXICAP_NO_ROOM, {size + 1024, size / 70, size / 280}, NULL, NULL, NULL};
    while (it.status == TOXICAP_NO_ROOM) {
        ToxicapLinesSizes room = it.sizes;
        free(it.connections);
        it.connections = (ToxicapConnection *)malloc(room.connections * sizeof *it.connections + room.chunks * sizeof *it.chunks + room.bytes + 1);
        if (it.connections == NULL) {
            ToxicapLines none = {TOXICAP_NO_MEMORY, {0, 0, 0}, NULL, NULL, NULL};
            return none;
        }
        it.chunks = (ToxicapChunk *)(it.connections + room.connections);
        it.bytes = (uint8_t *)(it.chunks + room.chunks);
        it.status = toxicap_lines(&inputs, it.bytes, room.bytes, it.chunks, room.chunks, it.connections, room.connections, &it.sizes);
    }
    return it;
}

#endif
