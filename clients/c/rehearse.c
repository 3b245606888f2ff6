/* Rehearses a capture under scenarios in this process, and stores what `toxicap --out .` does: rehearse CAPTURE SCENARIO..
   HOSTS of the environment has lines NAME=ADDR. Built by cc -I include -o rehearse clients/c/rehearse.c lib/libtoxicap.a */
#include "rehearse.h"
#include <err.h>
#include <stdio.h>

/* Puts a file's bytes at the end of a text, and gives their number. */
static size_t add_file(ToxicapText *text, const char *path)
{
    FILE *file = fopen(path, "rb");
    if (file == NULL || fseek(file, 0, SEEK_END) != 0 || ftell(file) < 0)
        err(2, "%s", path);
    size_t len = ftell(file);
    rewind(file);
    text->bytes = (uint8_t *)realloc(text->bytes, text->len + len + 1);
    if (text->bytes == NULL || fread(text->bytes + text->len, 1, len, file) != len || fclose(file) != 0)
        err(2, "%s", path);
    text->len += len;
    return len;
}

/* Stores the first bytes, and gives where the next ones stand. */
static const uint8_t *store(size_t number, const char *ending, const uint8_t *bytes, size_t len)
{
    char name[32];
    snprintf(name, sizeof name, "%04zu.%s", number, ending);
    FILE *file = fopen(name, "wb");
    if (file == NULL || fwrite(bytes, 1, len, file) != len || fclose(file) != 0)
        err(2, "%s", name);
    return bytes + len;
}

int main(int count, char **words)
{
    ToxicapText capture = {NULL, 0}, scenarios = {NULL, 0};
    size_t *lens = (size_t *)calloc(count, sizeof *lens), number = 0;
    const char *hosts = getenv("HOSTS");
    if (count < 3 || lens == NULL)
        errx(2, "CAPTURE SCENARIO..");
    add_file(&capture, words[1]);
    for (int word = 2; word < count; word++)
        lens[number++] = add_file(&scenarios, words[word]);
    ToxicapAnswer it = toxicap_answer(capture, scenarios, lens, number, hosts != NULL ? hosts : "", 0);
    if (it.status == TOXICAP_REFUSED)
        fprintf(stderr, "%.*s\n", (int)it.sizes.reports, (const char *)it.reports);
    if (it.status == TOXICAP_NO_MEMORY)
        fputs("refused 40 Memory\n", stderr);
    const uint8_t *captures = it.captures, *reports = it.reports;
    for (size_t i = 0; it.status == TOXICAP_ANSWERED && i < number; i++) {
        captures = store(i, "pcap", captures, it.lens[2 * i]);
        reports = store(i, "txt", reports, it.lens[2 * i + 1]);
    }
    free(it.lens), free(lens), free(capture.bytes), free(scenarios.bytes);
    return it.status == TOXICAP_ANSWERED ? 0 : 1;
}
