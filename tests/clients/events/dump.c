/* Prints the events of output captures: `dump CAPTURE..`. See dump.py. */
#include "../../../clients/c/events.h"
#include <err.h>

static const char *ways[] = {"up", "down"}, *ends[] = {"", "fin", "reset", "refused"};

/* The order of events by connection; those of one connection stay as they stand in the list. */
static int order(const void *one, const void *other)
{
    const ToxicapEvent *a = *(ToxicapEvent *const *)one, *b = *(ToxicapEvent *const *)other;
    return a->connection != b->connection ? (a->connection < b->connection ? -1 : 1) : (a > b) - (a < b);
}

/* Prints what one direction of a connection delivered, of all its events. */
static void print_line(ToxicapEvent **events, size_t count, size_t number, int is_down)
{
    char end[48] = "open";
    size_t len = 0;
    char *chunks = (char *)calloc(count + 1, 48);
    if (chunks == NULL)
        err(1, "calloc");
    for (size_t i = 0; i < count; i++) {
        const ToxicapEvent *event = events[i];
        unsigned long long time = event->time;
        if (event->is_down != is_down)
            continue;
        if (event->kind == TOXICAP_EVENT_CHUNK)
            len += sprintf(chunks + len, "%s%llu:%zu", len > 0 ? " " : "", time, event->len);
        else
            snprintf(end, sizeof end, "%s+%llu", ends[event->kind], time);
    }
    printf("%zu delivered %s %s %s\n", number, ways[is_down], end, chunks);
    free(chunks);
}

static void dump(const uint8_t *capture, size_t len)
{
    ToxicapEvents events;
    if (!toxicap_events_of(capture, len, &events)) {
        puts(events.fault);
        return;
    }
    ToxicapEvent **ordered = (ToxicapEvent **)malloc((events.count + 1) * sizeof *ordered);
    if (ordered == NULL)
        err(1, "malloc");
    for (size_t i = 0; i < events.count; i++)
        ordered[i] = &events.all[i];
    qsort(ordered, events.count, sizeof *ordered, order);
    for (size_t i = 0; i < events.count; i++) {
        const ToxicapEvent *event = ordered[i];
        printf("%zu %llu %s ", event->connection, (unsigned long long)event->time, ways[event->is_down]);
        for (size_t byte = 0; byte < event->len; byte++)
            printf("%02x", event->bytes[byte]);
        puts(ends[event->kind]);
    }
    for (size_t number = 0, from = 0, to = 0; number < events.connections; number++, from = to) {
        while (to < events.count && ordered[to]->connection == number)
            to++;
        for (int is_down = 0; is_down < 2; is_down++)
            print_line(ordered + from, to - from, number, is_down);
    }
    free(ordered);
    toxicap_events_free(&events);
}

int main(int count, char **paths)
{
    for (int i = 1; i < count; i++) {
        FILE *file = fopen(paths[i], "rb");
        if (file == NULL || fseek(file, 0, SEEK_END) != 0)
            err(1, "%s", paths[i]);
        size_t len = ftell(file);
        uint8_t *capture = (uint8_t *)malloc(len + 1);
        rewind(file);
        if (capture == NULL || fread(capture, 1, len, file) != len)
            err(1, "%s", paths[i]);
        printf("== %s\n", paths[i]);
        dump(capture, len);
        free(capture);
        fclose(file);
    }
}
