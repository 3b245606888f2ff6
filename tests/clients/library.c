/* Calls the library for C as the program is called, and looks at what a call does to the caller's memory:
       library TASK [COUNT] --capture FILE [--scenario FILE].. [--host NAME=ADDR].. [--seed N] [--out FOLDER]
   Without --scenario there is one scenario, `[]`. What is at fault is told on standard output, with status 3. The tasks are
     answer         stores in the folder, or tells on standard error with status 1, what the program does; before that each call has been
                    made with each of its buffers too small, just right and too large
     lines          prints the delivered lines as `tests/rows/expected.py --lines` does
     again COUNT    COUNT calls, none of which may leave memory; from a thousand on the process may not grow after the tenth part of them
     threads COUNT  eight threads, each with 256 KB of stack, a seed of its own and COUNT calls
     growths        each growth of memory is refused in turn, also with all later ones, and also with room only for the line of out of memory, or too little
     edges          a scenario's length past the end, a last host without a line feed, inputs that are null, a capture that is too long
   It is linked with --wrap for malloc, realloc, calloc and free, so that its growths are counted (of a static library, the library's too). */
#define _GNU_SOURCE
#include "library.h"
#include <inttypes.h>
#include <pthread.h>
#include <stdio.h>
#include <stdlib.h>
#include <string.h>
#include <sys/mman.h>
#include <time.h>
#include <toxicap.h>

enum { THREADS = 8 };

static void store(const char *folder, size_t number, const char *ending, const uint8_t *bytes, size_t len)
{
    char path[4200];
    snprintf(path, sizeof path, "%s/%04zu.%s", folder, number, ending);
    FILE *file = fopen(path, "wb");
    must(file != NULL && fwrite(bytes, 1, len, file) == len && fclose(file) == 0, path);
}

/* begins: whether a refusal's text begins with this line. */
static int begins(const struct memory *refusal, const char *line)
{
    size_t len = strlen(line);
    return refusal->sizes.of[TEXT] > len && memcmp(refusal->parts[TEXT], line, len) == 0 && refusal->parts[TEXT][len] == '\n';
}

static int answered(struct question *asked, const char *folder)
{
    uint8_t status, other;
    struct memory both = answer(asked, &status);
    asked->call = REPORTS;
    struct memory reports = answer(asked, &other);
    must(status == other && reports.sizes.of[TEXT] == both.sizes.of[TEXT] && memcmp(reports.parts[TEXT], both.parts[TEXT], both.sizes.of[TEXT]) == 0,
         "the reports alone are others");
    size_t place[2] = {0, 0}, *lens = (size_t *)both.parts[2];
    for (size_t number = 0; number < both.sizes.of[2]; number++) {
        int part = number % 2;
        store(folder, number / 2, part == 0 ? "pcap" : "txt", both.parts[part] + place[part], lens[number]);
        place[part] += lens[number];
    }
    must(status == TOXICAP_REFUSED || (place[0] == both.sizes.of[0] && place[1] == both.sizes.of[1]), "the lengths do not add up to the sizes");
    if (status == TOXICAP_REFUSED)
        fprintf(stderr, "%.*s\n", (int)strcspn((char *)both.parts[TEXT], "\n"), (char *)both.parts[TEXT]);
    release(&both);

    asked->call = LINES;
    struct memory lines = answer(asked, &other);
    must(status == other && (status == TOXICAP_ANSWERED || is_same(&lines, &reports)), "lines are refused otherwise than reports");
    release(&lines);

    asked->call = EFFECTS;
    struct memory effects = answer(asked, &other);
    must(status == other && (status == TOXICAP_ANSWERED || is_same(&effects, &reports)), "effects are refused otherwise than reports");
    release(&effects);
    release(&reports);
    return status;
}

static void print_direction(const ToxicapDirection *way, const uint8_t *bytes, const ToxicapChunk *chunks)
{
    printf("%" PRIu64 " %" PRIu64 " %" PRIu64, way->bytes, way->end, way->end_time);
    for (uint64_t chunk = 0, place = 0; chunk < way->chunks; chunk++) {
        printf(" %" PRIu64 ":", chunks[chunk].time);
        for (; place < chunks[chunk].end; place++)
            printf("%02x", bytes[place]);
    }
    puts("");
}

static void lines(struct question *asked)
{
    uint8_t status;
    asked->call = LINES;
    struct memory it = answer(asked, &status);
    must(status == TOXICAP_ANSWERED, "the lines are refused");
    const uint8_t *bytes = it.parts[TEXT];
    const ToxicapChunk *chunks = (ToxicapChunk *)it.parts[0];
    const ToxicapConnection *all = (ToxicapConnection *)it.parts[2];
    size_t count = it.sizes.of[2] / asked->scenario_count;
    for (size_t number = 0; number < it.sizes.of[2]; number++) {
        const ToxicapConnection *of = &all[number];
        printf("%zu %zu %" PRIu64 " %08x:%d > %08x:%d vlan %u\n", number / count, number % count, of->opened, of->client_address, of->client_port,
               of->server_address, of->server_port, of->vlan);
        for (int is_down = 0; is_down < 2; is_down++) {
            const ToxicapDirection *way = is_down ? &of->down : &of->up;
            print_direction(way, bytes, chunks);
            bytes += way->bytes;
            chunks += way->chunks;
        }
    }
    must(bytes == it.parts[TEXT] + it.sizes.of[TEXT] && chunks == (ToxicapChunk *)it.parts[0] + it.sizes.of[0], "the directions do not add up");
    release(&it);
}

/* resident: the memory of this process, in kilobytes. */
static long resident(void)
{
    char line[256];
    long size = -1;
    FILE *file = fopen("/proc/self/status", "r");
    while (file != NULL && fgets(line, sizeof line, file) != NULL)
        if (sscanf(line, "VmRSS: %ld kB", &size) == 1)
            break;
    must(size > 0, "the memory of this process is not told");
    fclose(file);
    return size;
}

static double now(void)
{
    struct timespec time;
    clock_gettime(CLOCK_MONOTONIC, &time);
    return time.tv_sec + time.tv_nsec / 1e9;
}

static void again(const struct question *asked, long count)
{
    uint8_t status;
    struct memory first = answer(asked, &status), other = memory_of(asked, first.sizes);
    // (what the first measurement itself takes is not to count)
    long before = blocks, early = resident();
    double begun = now();
    for (long number = 1; number <= count; number++) {
        must(ask(asked, &other) == status && is_same(&first, &other), "a later call has another answer");
        must(blocks == before, "a call leaves memory");
        if (number == count / 10)
            early = resident();
    }
    double took = now() - begun;
    long late = resident();
    printf("%ld calls, %.0f microseconds a call, %ld KB after a tenth of them, %ld KB at the end\n", count, took / count * 1e6, early, late);
    must(count < 1000 || late <= early + 16, "the process has grown");
    release(&first);
    release(&other);
}

/* What a thread is to do. */
struct turn {
    struct question asked;
    struct memory expected;
    uint8_t status;
    long count;
};

static void *ask_again(void *given)
{
    struct turn *turn = given;
    struct memory other = memory_of(&turn->asked, turn->expected.sizes);
    for (long number = 0; number < turn->count; number++)
        must(ask(&turn->asked, &other) == turn->status && is_same(&turn->expected, &other), "a thread has another answer");
    release(&other);
    return NULL;
}

static void threads(const struct question *asked, long count)
{
    static struct turn turns[THREADS];
    pthread_t thread[THREADS];
    pthread_attr_t small;
    must(pthread_attr_init(&small) == 0 && pthread_attr_setstacksize(&small, 256 * 1024) == 0, "no stack of this size");
    for (int number = 0; number < THREADS; number++) {
        struct turn *turn = &turns[number];
        turn->asked = *asked;
        turn->asked.seed += number;
        turn->asked.call = number % CALLS;
        turn->expected = answer(&turn->asked, &turn->status);
        turn->count = count;
    }
    for (int number = 0; number < THREADS; number++)
        must(pthread_create(&thread[number], &small, ask_again, &turns[number]) == 0, "a thread cannot be made");
    for (int number = 0; number < THREADS; number++)
        must(pthread_join(thread[number], NULL) == 0, "a thread cannot be joined");
    for (int number = 0; number < THREADS; number++)
        release(&turns[number].expected);
}

/* starved: asks with this growth refused, and with this room for a text; whether there was such a growth. */
static int starved(const struct question *asked, const struct memory *full, uint8_t full_status, long number, size_t text_room)
{
    struct sizes room = full->sizes;
    room.of[TEXT] = text_room;
    struct memory memory = memory_of(asked, room);
    long before = blocks;
    growths = 0;
    refused_growth = number;
    uint8_t status = ask(asked, &memory);
    int was_refused = growths >= number;
    refused_growth = 0;
    must(blocks == before, "a refused growth leaves memory");
    must(leaves(&memory, status == TOXICAP_NO_ROOM ? no_sizes : memory.sizes), "a refused growth changes other bytes than it tells of");
    size_t len = strlen(want_of_memory);
    if (status == TOXICAP_NO_MEMORY)
        must(was_refused && text_room < len && are_equal(memory.sizes, no_sizes), "status 3 with room or sizes");
    else if (status == TOXICAP_REFUSED && memory.sizes.of[TEXT] == len && memcmp(memory.parts[TEXT], want_of_memory, len) == 0)
        must(was_refused && memory.sizes.of[0] == 0 && memory.sizes.of[2] == 0, "out of memory where no growth was refused");
    else if (status == TOXICAP_NO_ROOM)
        must(text_room < full->sizes.of[TEXT] && are_equal(memory.sizes, full->sizes), "status 2 for something else than the answer");
    else
        must(status == full_status && is_same(full, &memory), "a refused growth gives a third answer");
    must(!was_refused || !later_too || status == (text_room < len ? TOXICAP_NO_MEMORY : TOXICAP_REFUSED),
         "no lack of memory where all is refused from a growth on");
    release(&memory);
    return was_refused;
}

static void each_growth(struct question *asked)
{
    for (asked->call = REHEARSE; asked->call < CALLS; asked->call++) {
        uint8_t status;
        long number = 0;
        struct memory full = answer(asked, &status);
        size_t len = strlen(want_of_memory), rooms[] = {full.sizes.of[TEXT] + len, len, len - 1};
        for (int way = 0; way < 6; way++) {
            later_too = way / 3;
            for (number = 1; starved(asked, &full, status, number, rooms[way % 3]); number++)
                ;
            must(number > 1, "no growth can be refused");
        }
        printf("%ld growths\n", number - 1);
        release(&full);
    }
}

/* tells: the call is refused with this line, and what helps after it. */
static void tells(const struct question *asked, const char *line)
{
    uint8_t status;
    struct memory memory = answer(asked, &status);
    must(status == TOXICAP_REFUSED && begins(&memory, line), line);
    release(&memory);
}

/* gives: the call has this answer. */
static void gives(const struct question *asked, const struct memory *expected, uint8_t expected_status, const char *what)
{
    uint8_t status;
    struct memory memory = answer(asked, &status);
    must(status == expected_status && is_same(expected, &memory), what);
    release(&memory);
}

static void edges(struct question *asked)
{
    uint8_t status;
    struct memory expected = answer(asked, &status), nothing = {.sizes = no_sizes};
    size_t last = asked->scenario_count - 1, too_long = ((size_t)1 << 30) + 1;
    struct question changed = *asked;

    changed.scenario_lens[last] = (size_t)-1 / 2;
    gives(&changed, &expected, status, "a scenario's length past the end changes the answer");

    changed = *asked;
    changed.hosts.len -= changed.hosts.len > 0;
    gives(&changed, &expected, status, "a last host without a line feed changes the answer");

    changed = *asked;
    add(&changed.hosts, "\n", 1);
    asked->hosts = changed.hosts;
    tells(&changed, changed.hosts.len > 1 ? "refused 23 BadHost host 1" : "refused 23 BadHost host 0");

    /* null for hosts, for scenarios with their lengths, and for the capture */
    changed.hosts = (struct text){NULL, 0};
    gives(&changed, &expected, status, "hosts that are null change the answer");
    changed.scenarios = changed.hosts;
    changed.scenario_count = 0;
    gives(&changed, &nothing, TOXICAP_ANSWERED, "no scenario is not answered with nothing");
    changed.capture = changed.hosts;
    for (changed.call = REHEARSE; changed.call < CALLS; changed.call++)
        tells(&changed, "refused 1 ShortHeader");

    changed = *asked;
    changed.hosts.len--;
    changed.capture = (struct text){mmap(NULL, too_long, PROT_READ, MAP_PRIVATE | MAP_ANONYMOUS | MAP_NORESERVE, -1, 0), too_long};
    must(changed.capture.bytes != MAP_FAILED, "no room for a capture that is too long");
    for (changed.call = REHEARSE; changed.call < CALLS; changed.call++)
        tells(&changed, "refused 6 CaptureTooLong");
    munmap(changed.capture.bytes, too_long);
    release(&expected);
}

int main(int count, char **words)
{
    static struct question asked = {.call = REHEARSE};
    const char *folder = ".", *task = count > 1 ? words[1] : "";
    long times = count > 2 ? atol(words[2]) : 0;
    for (int word = times > 0 ? 3 : 2; word + 1 < count; word += 2) {
        const char *value = words[word + 1];
        size_t before = asked.scenarios.len;
        if (strcmp(words[word], "--capture") == 0) {
            add_file(&asked.capture, value);
        } else if (strcmp(words[word], "--scenario") == 0) {
            must(asked.scenario_count < MOST_SCENARIOS, "too many scenarios for these tests");
            add_file(&asked.scenarios, value);
            asked.scenario_lens[asked.scenario_count++] = asked.scenarios.len - before;
        } else if (strcmp(words[word], "--host") == 0) {
            add(&asked.hosts, value, strlen(value));
            add(&asked.hosts, "\n", 1);
        } else if (strcmp(words[word], "--seed") == 0) {
            asked.seed = strtoull(value, NULL, 10);
        } else {
            must(strcmp(words[word], "--out") == 0, words[word]);
            folder = value;
        }
    }
    if (asked.scenario_count == 0) {
        add(&asked.scenarios, "[]", 2);
        asked.scenario_lens[asked.scenario_count++] = 2;
    }
    int status = 0;
    if (strcmp(task, "answer") == 0)
        status = answered(&asked, folder);
    else if (strcmp(task, "lines") == 0)
        lines(&asked);
    else if (strcmp(task, "again") == 0)
        again(&asked, times);
    else if (strcmp(task, "threads") == 0)
        threads(&asked, times);
    else if (strcmp(task, "growths") == 0)
        each_growth(&asked);
    else if (strcmp(task, "edges") == 0)
        edges(&asked);
    else
        must(0, "there is no such task");
    free(asked.capture.bytes);
    free(asked.scenarios.bytes);
    free(asked.hosts.bytes);
    return status;
}
