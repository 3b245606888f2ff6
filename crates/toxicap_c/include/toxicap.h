/*
 * toxicap in your own process: what recorded TCP sessions would have been under network faults, as bytes, without files and processes.
 *
 * Each call fills buffers of the caller's; nothing is handed out that has to be freed, and nothing is kept from one call to the next.
 * Equal inputs give equal bytes; captures and reports are those that the program `toxicap` gives. The library reads and writes no file, starts
 * no thread and prints nothing. The processor has to be x86-64-v2.
 *
 * It calls: `free`, `malloc`, `memcpy`, `memmove`, `memset` and `realloc` of the C library, and linked statically also `__udivti3` of the
 * compiler's own library, which gcc, clang and rustc link by themselves.
 *
 * In use: call with the room that you have (none will do); if the status is TOXICAP_NO_ROOM, make the room that `sizes` says, and
 * call again:
 *
 *     ToxicapSizes sizes;
 *     uint8_t status = toxicap_rehearse(&inputs, captures, captures_room, reports, reports_room, lens, lens_room, &sizes);
 *     if (status == TOXICAP_NO_ROOM) {
 *         .. room of sizes.captures bytes, sizes.reports bytes and sizes.lens entries ..
 *         status = toxicap_rehearse(&inputs, .. the new room .., &sizes);
 *     }
 *
 * What the caller keeps, and nothing checks:
 *   - Each pointer leads to as many elements as the length or room after it says, aligned for its type, readable, and for an output writable.
 *     No length is 2^63 bytes or more. A pointer may be null if its length is 0.
 *   - `inputs` and `sizes` are not null.
 *   - An output overlaps no other output and no input, and no other thread touches one during the call. Inputs may overlap each other, and are
 *     not changed by anyone during the call.
 *   - The thread has 256 KB of stack left. With 28 KB most calls crash, with 40 KB those of JSON that nests deeply.
 *   - No call is made in a signal handler, or in a process that was forked from one with threads.
 *   - If `malloc`, `realloc` and `free` are not the C library's, they are those of one allocator, which aligns a block to each power of
 *     two up to 16 that divides its size.
 * Any thread may call, and calls may run at once.
 */
#ifndef TOXICAP_H
#define TOXICAP_H

#include <stddef.h>
#include <stdint.h>

/* The version of this header, which the library has too: 10,000 times the major number, 100 times the minor one, and the patch number. */
#define TOXICAP_VERSION 10000
#define TOXICAP_VERSION_TEXT "1.0.0"

/* A result that is not to be left unused. */
#if defined __GNUC__
#define TOXICAP_CHECKED __attribute__((warn_unused_result))
#else
#define TOXICAP_CHECKED
#endif

#ifdef __cplusplus
extern "C" {
#endif

/* The status of a call. */
enum {
    /* Answered: the outputs are written, and `sizes` says how much of each. What stands after that in a buffer is as it was. */
    TOXICAP_ANSWERED = 0,
    /* Refused: at the start of `reports` (of lines: `bytes`) stands the line that the program prints, such as
       `refused 5 RecordTooLong at 0`, and after a line feed what helps, in one line. Neither a line feed nor a zero byte stands at the end.
       Its length is in `sizes.reports` (`sizes.bytes`); the other sizes are 0, and the other buffers are as they were. docs/use/refusals.md has
       all refusals. `refused 40 Memory` is lack of memory, also for the text of another refusal; it stands without a second line. */
    TOXICAP_REFUSED = 1,
    /* Too little room: `sizes` says what is required, of the answer or of a refusal's text, and at least one of these is more than the room.
       All buffers are as they were. Lack of memory is never told so. */
    TOXICAP_NO_ROOM = 2,
    /* Lack of memory, and the room is less than the 17 bytes of `refused 40 Memory`. All of `sizes` is 0, all buffers are as they were. */
    TOXICAP_NO_MEMORY = 3
};

/* What a rehearsal is made of.
 *
 *   capture          a classic pcap of Ethernet frames, or a dump of one in hexadecimal; capture_len bytes
 *   scenarios        the texts of the scenarios (JSON, in Toxiproxy's populate form), one right after another; scenarios_len bytes.
 *                    The text `[]` is a scenario without a proxy: the sessions as they were recorded. Without a text there
 *                    is no output, while the program without a scenario uses this one
 *   scenario_lens    the length of each text in bytes, in their order; scenario_count entries, which add up to scenarios_len. A length
 *                    that goes past the end of `scenarios` is cut there
 *   hosts            the addresses of names that scenarios use: lines NAME=ADDR with an IPv4 address, each ended by a line feed, which the
 *                    last one may do without; hosts_len bytes, 0 if no name is used
 *   seed             what all drawing depends on */
typedef struct {
    const uint8_t *capture;
    size_t capture_len;
    const uint8_t *scenarios;
    size_t scenarios_len;
    const size_t *scenario_lens;
    size_t scenario_count;
    const uint8_t *hosts;
    size_t hosts_len;
    uint64_t seed;
} ToxicapInputs;

/* How much is written of each output, or is required. */
typedef struct {
    size_t captures; /* bytes */
    size_t reports;  /* bytes; if the call is refused, those of its text */
    size_t lens;     /* entries: two for each scenario */
} ToxicapSizes;

/*
 * Rehearses a capture under scenarios: for each scenario the capture of what each side would have received, and the report.
 *
 *   captures         room for the captures, one right after another; captures_room bytes
 *   reports          room for the reports (UTF-8 text), one right after another, or for a refusal's text; reports_room bytes
 *   lens             room for the lengths in bytes: lens[2 * i] of the capture and lens[2 * i + 1] of the report of scenario i, from 0 on;
 *                    lens_room ENTRIES
 *   sizes            what was written, or is required
 *
 * Gives the status.
 */
TOXICAP_CHECKED
uint8_t toxicap_rehearse(
    const ToxicapInputs *inputs,
    uint8_t *captures, size_t captures_room,
    uint8_t *reports, size_t reports_room,
    size_t *lens, size_t lens_room,
    ToxicapSizes *sizes);

/*
 * The reports alone, the same bytes as of `toxicap_rehearse`. No capture is made, which takes less time and memory. `sizes.captures` and
 * `sizes.lens` are always 0. A report ends with a line feed, and its first line begins with `scenario` and its number.
 *
 * Gives the status.
 */
TOXICAP_CHECKED
uint8_t toxicap_reports(
    const ToxicapInputs *inputs,
    uint8_t *reports, size_t reports_room,
    ToxicapSizes *sizes);

/* Bytes of a direction that come at once. */
typedef struct {
    uint64_t end;  /* the number of the direction's bytes up to the chunk's last */
    uint64_t time; /* when it comes, in nanoseconds since the opening */
} ToxicapChunk;

/* How a direction ends. */
enum {
    TOXICAP_OPEN = 0,              /* not at all */
    TOXICAP_FIN = 1,               /* by a FIN */
    TOXICAP_CLOSE = 2,             /* by a close of a toxic, which an output capture has as a FIN */
    TOXICAP_RESET = 3,             /* by a reset */
    TOXICAP_REFUSED_CONNECTION = 4 /* a disabled proxy refuses the connection */
};

/* What one side of a connection sent, as the other side receives it. */
typedef struct {
    uint64_t bytes;    /* the number of its bytes */
    uint64_t chunks;   /* the number of its chunks */
    uint64_t end_time; /* when it ends, in nanoseconds since the opening; 0 if it does not, or the connection is refused */
    uint64_t end;      /* how it ends, such as TOXICAP_FIN */
} ToxicapDirection;

/* A connection in a scenario. */
typedef struct {
    uint64_t opened;         /* when it was opened, in nanoseconds since 1970 */
    ToxicapDirection up;     /* what the client sent */
    ToxicapDirection down;   /* what the server sent */
    uint32_t client_address; /* of IPv4, its first byte the highest */
    uint32_t server_address;
    uint16_t client_port;
    uint16_t server_port;
    uint32_t vlan;           /* the number of the VLAN, or 0 without one */
} ToxicapConnection;

/* How much is written of each output of `toxicap_lines`, or is required. */
typedef struct {
    size_t bytes;       /* if the call is refused, those of its text */
    size_t chunks;      /* entries */
    size_t connections; /* entries: for each scenario one for each connection */
} ToxicapLinesSizes;

/*
 * What each side of each connection receives in each scenario, and when: what the output captures of `toxicap_rehearse` hold, without headers. No
 * capture is made, which takes less time and memory.
 *
 *   bytes            room for the bytes of all directions, one right after another: of scenario 0 those of connection 0, first what the client
 *                    sent, then what the server sent, then of connection 1 and so on, then of scenario 1; or for a refusal's text;
 *                    bytes_room bytes
 *   chunks           room for the chunks of all directions, in the same order; chunks_room ENTRIES
 *   connections      room for the connections, scenario after scenario, in each in order of their numbers; connections_room ENTRIES
 *   sizes            what was written, or is required
 *
 * Gives the status.
 */
TOXICAP_CHECKED
uint8_t toxicap_lines(
    const ToxicapInputs *inputs,
    uint8_t *bytes, size_t bytes_room,
    ToxicapChunk *chunks, size_t chunks_room,
    ToxicapConnection *connections, size_t connections_room,
    ToxicapLinesSizes *sizes);

/* How much is written of each output of `toxicap_effects`, or is required. */
typedef struct {
    size_t counts; /* entries */
    size_t text;   /* bytes of a refusal's text */
} ToxicapEffectSizes;

/*
 * What each toxic does: for each proxy, scenario after scenario, how many connections meet it, and then for each of its toxics, those of what
 * the client sends first, how many draw it by its toxicity, and how many have another line of the report, or other records in the output
 * capture, than if the toxic were switched off. That toxic keeps its place, so all else is drawn as before.
 *
 *   counts           room for the numbers: one for each proxy and two for each toxic; counts_room ENTRIES
 *   text             room for a refusal's text; text_room bytes
 *   sizes            what was written, or is required
 *
 * Gives the status.
 */
TOXICAP_CHECKED
uint8_t toxicap_effects(
    const ToxicapInputs *inputs,
    uint64_t *counts, size_t counts_room,
    uint8_t *text, size_t text_room,
    ToxicapEffectSizes *sizes);

#ifdef __cplusplus
}
#endif

#endif
