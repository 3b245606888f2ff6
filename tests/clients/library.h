/* What the tests of the library for C share: growths that are counted and refused, inputs, and calls whose buffers are looked at. */
#include <stdio.h>
#include <stdlib.h>
#include <string.h>
#include <toxicap.h>

enum { GUARD = 64, FREE_BYTE = 0xa5, MOST_SCENARIOS = 300 };
static const char want_of_memory[] = "refused 40 Memory";

_Static_assert(sizeof(ToxicapInputs) == 72 && sizeof(ToxicapSizes) == 24 && sizeof(ToxicapLinesSizes) == 24 && sizeof(ToxicapEffectSizes) == 16, "inputs or sizes have padding");
_Static_assert(sizeof(ToxicapChunk) == 16 && sizeof(ToxicapDirection) == 32 && sizeof(ToxicapConnection) == 88, "an entry of lines has padding");

extern void *__real_malloc(size_t), *__real_calloc(size_t, size_t), *__real_realloc(void *, size_t);
extern void __real_free(void *);

static _Thread_local long growths, refused_growth, blocks;
static _Thread_local int later_too;

/* is_refused: whether the growth asked for is the one that is refused, or with `later_too` one after it. */
static int is_refused(void)
{
    growths++;
    return refused_growth > 0 && (growths == refused_growth || (later_too && growths > refused_growth));
}

void *__wrap_malloc(size_t size)
{
    void *block = is_refused() ? NULL : __real_malloc(size);
    blocks += block != NULL;
    return block;
}

void *__wrap_calloc(size_t count, size_t size)
{
    void *block = is_refused() ? NULL : __real_calloc(count, size);
    blocks += block != NULL;
    return block;
}

void *__wrap_realloc(void *old, size_t size)
{
    void *block = is_refused() ? NULL : __real_realloc(old, size);
    blocks += old == NULL && block != NULL;
    return block;
}

void __wrap_free(void *block)
{
    blocks -= block != NULL;
    __real_free(block);
}

/* must: what is at fault is told, and ends the process. */
static void must(int is_well, const char *what)
{
    if (is_well)
        return;
    printf("  %s\n", what);
    fflush(stdout);
    exit(3);
}

/* A text that grows. */
struct text {
    uint8_t *bytes;
    size_t len;
};

static void add(struct text *text, const void *bytes, size_t len)
{
    text->bytes = realloc(text->bytes, text->len + len + 1);
    must(text->bytes != NULL, "no memory for a file");
    memcpy(text->bytes + text->len, bytes, len);
    text->len += len;
}

static void add_file(struct text *text, const char *path)
{
    FILE *file = fopen(path, "rb");
    uint8_t part[65536];
    size_t len;
    must(file != NULL, path);
    while ((len = fread(part, 1, sizeof part, file)) > 0)
        add(text, part, len);
    fclose(file);
}

/* What is asked: which call, and its inputs. */
enum call { REHEARSE, REPORTS, LINES, EFFECTS, CALLS };
struct question {
    enum call call;
    struct text capture, scenarios, hosts;
    size_t scenario_lens[MOST_SCENARIOS], scenario_count;
    uint64_t seed;
};

/* How much of each output of a call: of captures, reports and lens, or of chunks, bytes and connections. */
enum { PARTS = 3, TEXT = 1 }; /* a refusal's text is in the output TEXT */
struct sizes {
    size_t of[PARTS];
};
static const struct sizes no_sizes = {{0, 0, 0}};

/* The caller's memory: each buffer with a guard before and after its room, all of one byte before a call. An entry of each takes `item` bytes. */
struct memory {
    uint8_t *parts[PARTS];
    size_t item[PARTS];
    struct sizes room, sizes;
};

static void *guarded(size_t size)
{
    uint8_t *block = malloc(size + 2 * GUARD);
    must(block != NULL, "no memory for a buffer");
    memset(block, FREE_BYTE, size + 2 * GUARD);
    return block + GUARD;
}

static struct memory memory_of(const struct question *asked, struct sizes room)
{
    struct memory it = {.item = {1, 1, sizeof(size_t)}, .room = room};
    if (asked->call == LINES)
        it.item[0] = sizeof(ToxicapChunk), it.item[2] = sizeof(ToxicapConnection);
    if (asked->call == EFFECTS)
        it.item[0] = sizeof(uint64_t);
    for (int part = 0; part < PARTS; part++)
        it.parts[part] = guarded(room.of[part] * it.item[part]);
    return it;
}

static void release(struct memory *memory)
{
    for (int part = 0; part < PARTS; part++)
        free(memory->parts[part] - GUARD);
}

/* is_free: whether a buffer, with its guards, is as it was except for the bytes `written` at its start. */
static int is_free(const uint8_t *bytes, size_t size, size_t written)
{
    for (size_t place = 0; place < GUARD; place++)
        if (bytes[-1 - (long)place] != FREE_BYTE)
            return 0;
    for (size_t place = written; place < size + GUARD; place++)
        if (bytes[place] != FREE_BYTE)
            return 0;
    return 1;
}

/* leaves: whether the buffers are as they were but for these sizes. */
static int leaves(const struct memory *memory, struct sizes written)
{
    for (int part = 0; part < PARTS; part++)
        if (!is_free(memory->parts[part], memory->room.of[part] * memory->item[part], written.of[part] * memory->item[part]))
            return 0;
    return 1;
}

static int are_equal(struct sizes one, struct sizes other)
{
    return memcmp(&one, &other, sizeof one) == 0;
}

static uint8_t ask(const struct question *asked, struct memory *memory)
{
    uint8_t *const *parts = memory->parts, status;
    const size_t *room = memory->room.of;
    ToxicapInputs inputs = {asked->capture.bytes, asked->capture.len, asked->scenarios.bytes, asked->scenarios.len,
                            asked->scenario_count > 0 ? asked->scenario_lens : NULL, asked->scenario_count, asked->hosts.bytes, asked->hosts.len,
                            asked->seed};
    if (asked->call == LINES) {
        ToxicapLinesSizes found = {7, 7, 7};
        status = toxicap_lines(&inputs, parts[TEXT], room[TEXT], (ToxicapChunk *)parts[0], room[0], (ToxicapConnection *)parts[2], room[2], &found);
        memory->sizes = (struct sizes){{found.chunks, found.bytes, found.connections}};
        return status;
    }
    if (asked->call == EFFECTS) {
        ToxicapEffectSizes found = {7, 7};
        status = toxicap_effects(&inputs, (uint64_t *)parts[0], room[0], parts[TEXT], room[TEXT], &found);
        memory->sizes = (struct sizes){{found.counts, found.text, 0}};
        return status;
    }
    ToxicapSizes found = {7, 7, 7};
    if (asked->call == REHEARSE)
        status = toxicap_rehearse(&inputs, parts[0], room[0], parts[TEXT], room[TEXT], (size_t *)parts[2], room[2], &found);
    else
        status = toxicap_reports(&inputs, parts[TEXT], room[TEXT], &found);
    memory->sizes = (struct sizes){{found.captures, found.reports, found.lens}};
    return status;
}

/* expected_sizes: what a call without any room says that it needs. */
static struct sizes expected_sizes(const struct question *asked)
{
    struct memory none = {.item = {0, 0, 0}};
    uint8_t status = ask(asked, &none);
    int may_be_nothing = asked->call >= LINES || asked->scenario_count == 0;
    must(status == TOXICAP_NO_ROOM || (status == TOXICAP_ANSWERED && may_be_nothing), "without room: another status than 2");
    must((status == TOXICAP_ANSWERED) == are_equal(none.sizes, no_sizes), "without room: status 2 although nothing is required");
    must(asked->call != REPORTS || (none.sizes.of[0] == 0 && none.sizes.of[2] == 0), "reports alone want room for captures or lengths");
    return none.sizes;
}

/* is_refusal: whether a text is a refusal: its line, and after a line feed what helps, in one line. */
static int is_refusal(const uint8_t *text, size_t len)
{
    const uint8_t *end = memchr(text, '\n', len);
    return len > 8 && memcmp(text, "refused ", 8) == 0 && memchr(text, 0, len) == NULL && end != NULL && (size_t)(end - text) + 1 < len
        && memchr(end + 1, '\n', text + len - end - 1) == NULL;
}

/* answer_in: the answer to a call with this room, which is to be enough; `status` is its status. */
static struct memory answer_in(const struct question *asked, struct sizes room, struct sizes expected, uint8_t *status)
{
    struct memory memory = memory_of(asked, room);
    *status = ask(asked, &memory);
    must(*status == TOXICAP_ANSWERED || *status == TOXICAP_REFUSED, "with enough room: neither answered nor refused");
    must(are_equal(memory.sizes, expected), "with enough room: other sizes than those that were expected");
    must(leaves(&memory, expected), "with enough room: bytes past the answer, or before a buffer, are changed");
    must(*status == TOXICAP_ANSWERED || (expected.of[0] == 0 && expected.of[2] == 0), "a refusal with other sizes than its text's");
    must(*status == TOXICAP_ANSWERED || is_refusal(memory.parts[TEXT], expected.of[TEXT]), "a refusal of another form");
    return memory;
}

/* is_same: whether both answers are the same bytes. */
static int is_same(const struct memory *one, const struct memory *other)
{
    for (int part = 0; part < PARTS; part++)
        if (one->sizes.of[part] != other->sizes.of[part]
            || memcmp(one->parts[part], other->parts[part], one->sizes.of[part] * one->item[part]) != 0)
            return 0;
    return 1;
}

/* too_small: with this room, which is not enough, nothing is changed. */
static void too_small(const struct question *asked, struct sizes room, struct sizes expected)
{
    struct memory memory = memory_of(asked, room);
    must(ask(asked, &memory) == TOXICAP_NO_ROOM, "with too little room: another status than 2");
    must(are_equal(memory.sizes, expected), "with too little room: other sizes than without room");
    must(leaves(&memory, no_sizes), "with too little room: a buffer is changed");
    release(&memory);
}

/* answer: asks with each room that is just right, by one too large and by one too small, and gives what just room gave. */
static struct memory answer(const struct question *asked, uint8_t *status)
{
    uint8_t again;
    struct sizes expected = expected_sizes(asked), more = {{expected.of[0] + 1, expected.of[1] + 1, expected.of[2] + 1}};
    struct memory right = answer_in(asked, expected, expected, status), large = answer_in(asked, more, expected, &again);
    must(*status == again && is_same(&right, &large), "with more room: another answer");
    must(*status == TOXICAP_REFUSED || asked->call != REHEARSE || expected.of[2] == 2 * asked->scenario_count, "another number of lengths");
    release(&large);
    for (int part = 0; part < PARTS; part++)
        if (expected.of[part] > 0) {
            struct sizes less = more;
            less.of[part] = expected.of[part] - 1;
            too_small(asked, less, expected);
        }
    return right;
}
