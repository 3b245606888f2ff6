/* What each side of a connection received, and when, read from an output capture of toxicap; to be copied.
 *
 *     ToxicapEvents events;
 *     if (!toxicap_events_of(capture, capture_len, &events))
 *         .. events.fault says why toxicap did not write this capture ..
 *     for (size_t i = 0; i < events.count; i++)
 *         .. events.all[i] ..
 *     toxicap_events_free(&events);
 *
 * An output capture has its segments in order, without repeats and gaps, so nothing is reassembled. A capture that toxicap did not write (a
 * recording, pcapng, an output that was cut or put in another order) is refused. Checksums are not looked at. */
#ifndef TOXICAP_EVENTS_H
#define TOXICAP_EVENTS_H

#include <stdint.h>
#include <stdio.h>
#include <stdlib.h>
#include <string.h>

/* What comes: a chunk of bytes, or how the direction ends: by a FIN (also a close in the report), by a reset, or since the proxy is disabled,
   which stands in both directions. */
typedef enum { TOXICAP_EVENT_CHUNK, TOXICAP_EVENT_FIN, TOXICAP_EVENT_RESET, TOXICAP_EVENT_REFUSED } ToxicapEventKind;

/* What comes at an instant in one direction of a connection. */
typedef struct {
    size_t connection; /* its number in the report */
    uint64_t time;     /* nanoseconds since the opening, also where the capture counts microseconds */
    int is_down;       /* 0 for what the client sent, 1 for what the server sent */
    ToxicapEventKind kind;
    uint8_t *bytes; /* of a chunk */
    size_t len;
} ToxicapEvent;

/* The events of a capture, in order of its segments: those of one connection in order of time. */
typedef struct {
    ToxicapEvent *all;
    size_t count;
    size_t connections; /* how many connections the capture has, also those without an event */
    char fault[128]; /* why there are none, with the number of the record at fault, from 0 */
} ToxicapEvents;

typedef struct {
    uint64_t time;
    uint8_t tag[5], peers[2][6]; /* the VLAN's tag after a 1, or zeros; sender and receiver */
    uint32_t seq, ack;
    uint8_t flags;
    const uint8_t *payload;
    size_t len;
} ToxicapEventRecord;

/* A connection while it is read; arrays have the client's before the server's. */
typedef struct {
    uint64_t opened;
    uint8_t tag[5], peers[2][6];
    uint32_t next[2], sent[2];
    int is_ended[2];
    uint8_t *begun[2];
    size_t begun_len[2];
} ToxicapEventConnection;

/* The connections that have begun, and lists of their sides that have not ended, by a hash of what the next record of a side has. `links` has
   `room` places for the beginnings of lists, and then two for each connection, for what comes after each of its sides. A link is the place of a
   side, or 0. */
typedef struct {
    ToxicapEventConnection *all;
    size_t count, room, *links;
} ToxicapEventConnections;

static uint32_t toxicap_events_little(const uint8_t *at) { return at[0] | (uint32_t)at[1] << 8 | (uint32_t)at[2] << 16 | (uint32_t)at[3] << 24; }
static uint32_t toxicap_events_big(const uint8_t *at) { return (uint32_t)at[0] << 24 | (uint32_t)at[1] << 16 | (uint32_t)at[2] << 8 | at[3]; }

/* A fault of a record. Gives 0. */
static int toxicap_events_fault(ToxicapEvents *events, size_t record, const char *why)
{
    snprintf(events->fault, sizeof events->fault, "no output capture of toxicap: record %zu: %s", record, why);
    return 0;
}

/* Reads the frame of a record; why there is none that toxicap wrote, or null. */
static const char *toxicap_events_frame(const uint8_t *frame, size_t len, ToxicapEventRecord *record)
{
    size_t link = len >= 14 && frame[12] == 0x81 && frame[13] == 0 ? 18 : 14;
    if (len < link + 40)
        return "it is cut, or no TCP segment";
    const uint8_t *ip = frame + link, *tcp = ip + 20;
    if (memcmp(ip - 2, "\x08\x00\x45\x00", 4) != 0 || (size_t)ip[2] * 256 + ip[3] != len - link || memcmp(ip + 4, "\0\0\x40\0\x40\x06", 6) != 0 ||
        tcp[12] != 0x50 || memcmp(tcp + 14, "\xff\xff", 2) != 0 || memcmp(tcp + 18, "\0\0", 2) != 0)
        return "its headers are another's";
    memset(record->tag, 0, 5);
    if (link == 18) {
        record->tag[0] = 1;
        memcpy(record->tag + 1, frame + 12, 4);
    }
    for (int i = 0; i < 2; i++) {
        memcpy(record->peers[i], ip + 12 + 4 * i, 4);
        memcpy(record->peers[i] + 4, tcp + 2 * i, 2);
    }
    record->seq = toxicap_events_big(tcp + 4);
    record->ack = toxicap_events_big(tcp + 8);
    record->flags = tcp[13];
    record->payload = tcp + 20;
    record->len = len - link - 40;
    return NULL;
}

/* Whether a record is that of an opening: this way or the other, with these numbers and without bytes. */
static int toxicap_events_is(const ToxicapEventRecord *record, const ToxicapEventRecord *syn, int is_back, uint32_t seq, uint32_t ack, uint8_t flags)
{
    return record->time == syn->time && memcmp(record->tag, syn->tag, 5) == 0 && memcmp(record->peers[0], syn->peers[is_back], 6) == 0 &&
           memcmp(record->peers[1], syn->peers[!is_back], 6) == 0 && record->seq == seq && record->ack == ack && record->flags == flags &&
           record->len == 0;
}

/* The next event of a list that has room for it. */
static void toxicap_events_add(ToxicapEvents *events, const ToxicapEventConnection *of, size_t number, uint64_t time, int side, ToxicapEventKind kind)
{
    ToxicapEvent event = {number, time - of->opened, side, kind, NULL, 0};
    events->all[events->count++] = event;
}

/* The connection that a SYN begins, and how many of the records left are its opening, or 0 where toxicap writes none such. */
static size_t toxicap_events_open(const ToxicapEventRecord *syn, size_t left, ToxicapEventConnection *begun)
{
    memset(begun, 0, sizeof *begun);
    begun->opened = syn->time;
    memcpy(begun->tag, syn->tag, 5);
    memcpy(begun->peers, syn->peers, 12);
    if (left >= 2 && toxicap_events_is(syn + 1, syn, 1, 0, syn->seq + 1, 20)) {
        begun->is_ended[0] = begun->is_ended[1] = 1;
        return 2;
    }
    if (left < 3 || !toxicap_events_is(syn + 1, syn, 1, syn[1].seq, syn->seq + 1, 18) ||
        !toxicap_events_is(syn + 2, syn, 0, syn->seq + 1, syn[1].seq + 1, 16))
        return 0;
    begun->next[0] = syn->seq + 1;
    begun->next[1] = syn[1].seq + 1;
    return 3;
}

/* Takes a record of a connection; why toxicap writes no such segment, or null. The pieces of a chunk are joined up to its PSH. */
static const char *toxicap_events_take(ToxicapEvents *events, ToxicapEventConnection *of, size_t number, int side, const ToxicapEventRecord *record)
{
    uint32_t len = (uint32_t)record->len;
    if ((record->flags == 17 || record->flags == 20) && len == 0 && of->begun_len[side] == 0) {
        of->is_ended[side] = 1;
        len = 1;
        toxicap_events_add(events, of, number, record->time, side, record->flags == 17 ? TOXICAP_EVENT_FIN : TOXICAP_EVENT_RESET);
    } else if ((record->flags == 24 && 0 < len && len <= 1460) || (record->flags == 16 && len == 1460)) {
        uint8_t *bytes = (uint8_t *)realloc(of->begun[side], of->begun_len[side] + len);
        if (bytes == NULL)
            return "lack of memory";
        memcpy(bytes + of->begun_len[side], record->payload, len);
        of->begun[side] = bytes;
        of->begun_len[side] += len;
        if (record->flags == 24) {
            toxicap_events_add(events, of, number, record->time, side, TOXICAP_EVENT_CHUNK);
            events->all[events->count - 1].bytes = bytes;
            events->all[events->count - 1].len = of->begun_len[side];
            of->begun[side] = NULL;
            of->begun_len[side] = 0;
        }
    } else {
        return "toxicap writes no such segment";
    }
    of->next[side] += len;
    of->sent[side] += len;
    return NULL;
}

/* The list of the sides whose next record may have these fields: its place, by the hash FNV-1a. */
static size_t toxicap_events_list(const ToxicapEventConnections *of, const uint8_t *tag, const uint8_t *sender, const uint8_t *receiver, uint32_t seq)
{
    uint64_t hash = UINT64_C(14695981039346656037) ^ seq;
    for (int i = 0; i < 17; i++)
        hash = (hash ^ (i < 5 ? tag[i] : i < 11 ? sender[i - 5] : receiver[i - 11])) * UINT64_C(1099511628211);
    return (hash ^ hash >> 32) % of->room;
}

/* Puts a side of a connection into its list, unless it has ended. */
static void toxicap_events_wait(const ToxicapEventConnections *of, size_t number, int side)
{
    const ToxicapEventConnection *it = &of->all[number];
    if (it->is_ended[side])
        return;
    size_t list = toxicap_events_list(of, it->tag, it->peers[side], it->peers[!side], it->next[side]), place = of->room + 2 * number + side;
    of->links[place] = of->links[list];
    of->links[list] = place;
}

/* Finds the sides that a record may go on with: it is as they await it, and acknowledges what was sent. How many there are; `link` is the place
   that leads to the last one. */
static size_t toxicap_events_find(const ToxicapEventConnections *of, const ToxicapEventRecord *record, size_t *link)
{
    size_t able = 0, before = toxicap_events_list(of, record->tag, record->peers[0], record->peers[1], record->seq);
    for (size_t place; (place = of->links[before]) != 0; before = place) {
        const ToxicapEventConnection *it = &of->all[(place - of->room) / 2];
        int side = (place - of->room) % 2;
        if (memcmp(it->tag, record->tag, 5) == 0 && memcmp(it->peers[side], record->peers[0], 6) == 0 &&
            memcmp(it->peers[!side], record->peers[1], 6) == 0 && it->next[!side] - record->ack <= it->sent[!side] &&
            record->seq == it->next[side]) {
            able++;
            *link = before;
        }
    }
    return able;
}

/* Puts the events of records into a list that has room for them; 0 where toxicap did not write them. */
static int toxicap_events_add_all(ToxicapEvents *events, const ToxicapEventRecord *records, size_t count, ToxicapEventConnections *of)
{
    size_t link = 0, len;
    for (size_t at = 0; at < count; at += len) {
        const ToxicapEventRecord *record = &records[at];
        len = 1;
        if (record->flags == 2 && record->len == 0) {
            if ((len = toxicap_events_open(record, count - at, &of->all[of->count])) == 0)
                return toxicap_events_fault(events, at, "no opening follows its SYN");
            for (int side = 0; side < 2; side++) {
                if (len == 2)
                    toxicap_events_add(events, &of->all[of->count], of->count, record->time, side, TOXICAP_EVENT_REFUSED);
                toxicap_events_wait(of, of->count, side);
            }
            of->count++;
            continue;
        }
        size_t able = toxicap_events_find(of, record, &link);
        const char *why = NULL;
        char text[48];
        if (able == 1) {
            size_t place = of->links[link], number = (place - of->room) / 2;
            int side = (place - of->room) % 2;
            of->links[link] = of->links[place];
            why = toxicap_events_take(events, &of->all[number], number, side, record);
            toxicap_events_wait(of, number, side);
        } else {
            snprintf(text, sizeof text, "%zu connections go on with it", able);
            why = text;
        }
        if (why != NULL)
            return toxicap_events_fault(events, at, why);
    }
    for (size_t i = 0; i < of->count; i++)
        if (of->all[i].begun_len[0] + of->all[i].begun_len[1] > 0)
            return toxicap_events_fault(events, count, "the end is missing");
    return 1;
}

/* Gives back what `toxicap_events_of` made. */
static inline void toxicap_events_free(ToxicapEvents *events)
{
    for (size_t i = 0; i < events->count; i++)
        free(events->all[i].bytes);
    free(events->all);
    events->all = NULL;
    events->count = 0;
}

/* The events of an output capture, to be given back by toxicap_events_free. Gives 1, or 0 if toxicap did not write this capture, or memory lacks: then
   there are no events, and `fault` says why. */
static inline int toxicap_events_of(const uint8_t *capture, size_t capture_len, ToxicapEvents *events)
{
    static const char header[] = "\2\0\4\0\0\0\0\0\0\0\0\0\xff\xff\0\0\1\0\0\0";
    uint64_t tick = 0;
    size_t count = 0, room = capture_len / 70 + 1; /* a record has 70 bytes at least */
    memset(events, 0, sizeof *events);
    if (capture_len >= 24)
        tick = memcmp(capture, "\xd4\xc3\xb2\xa1", 4) == 0 ? 1000 : memcmp(capture, "\x4d\x3c\xb2\xa1", 4) == 0 ? 1 : 0;
    if (tick == 0 || memcmp(capture + 4, header, 20) != 0) {
        snprintf(events->fault, sizeof events->fault, "no output capture of toxicap: it has another file header");
        return 0;
    }
    ToxicapEventRecord *records = (ToxicapEventRecord *)malloc(room * sizeof *records);
    ToxicapEventConnection *all = (ToxicapEventConnection *)malloc(room * sizeof *all);
    ToxicapEventConnections connections = {all, 0, room, (size_t *)calloc(room, 3 * sizeof(size_t))};
    events->all = (ToxicapEvent *)malloc(room * sizeof *events->all);
    int is_right = records != NULL && all != NULL && connections.links != NULL && events->all != NULL;
    if (!is_right)
        toxicap_events_fault(events, 0, "lack of memory");
    for (size_t place = 24, held; is_right && place < capture_len; place += 16 + held, count++) {
        const uint8_t *head = capture + place;
        held = 0;
        if (capture_len - place >= 16 && memcmp(head + 8, head + 12, 4) == 0 && toxicap_events_little(head + 8) <= capture_len - place - 16)
            held = toxicap_events_little(head + 8);
        const char *why = toxicap_events_frame(held > 0 ? head + 16 : head, held, &records[count]);
        if (why == NULL) {
            uint64_t ticks = toxicap_events_little(head + 4) * tick;
            records[count].time = toxicap_events_little(head) * UINT64_C(1000000000) + ticks;
            if (ticks >= 1000000000 || (count > 0 && records[count].time < records[count - 1].time))
                why = "its time is none, or falls back";
        }
        is_right = why == NULL || toxicap_events_fault(events, count, why);
    }
    is_right = is_right && toxicap_events_add_all(events, records, count, &connections);
    events->connections = is_right ? connections.count : 0;
    for (size_t i = 0; i < connections.count; i++) {
        free(all[i].begun[0]), free(all[i].begun[1]);
    }
    free(records), free(all), free(connections.links);
    if (!is_right)
        toxicap_events_free(events);
    return is_right;
}

#endif
