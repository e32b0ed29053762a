/* The cases of a file that bench/cases made: streams and payloads, the states between payloads, the words of each. */
#include "bench.h"

#include <stdarg.h>
#include <stdio.h>
#include <stdlib.h>
#include <string.h>

enum { MOST_WORDS = 1024 };

void give_up(const char *format, ...)
{
    va_list words;
    va_start(words, format);
    fputs("bench: ", stderr);
    vfprintf(stderr, format, words);
    fputs("\n", stderr);
    va_end(words);
    exit(1);
}

void *room_for(size_t count, size_t size)
{
    void *room = calloc(count ? count : 1, size);
    if (!room)
        give_up("there is no memory for what is timed");
    return room;
}

static void load(FILE *file, void *to, size_t size)
{
    if (fread(to, 1, size, file) != size)
        give_up("the file of cases ends too soon");
}

static uint32_t load_number(FILE *file)
{
    uint32_t number;
    load(file, &number, sizeof number);
    return number;
}

static void load_stream(FILE *file, struct stream *stream)
{
    stream->index = load_number(file);
    stream->returned = load_number(file);
    stream->size = load_number(file);
    stream->bytes = room_for(stream->size, 1);
    load(file, stream->bytes, stream->size);
    load(file, stream->known.lines, sizeof stream->known.lines);
    load(file, stream->known.factors.of, sizeof stream->known.factors.of);
    load(file, stream->known.books.of, sizeof stream->known.books.of);
    load(file, stream->known.answer, sizeof stream->known.answer);
}

static void load_payload(FILE *file, struct payload *payload)
{
    payload->is_first = load_number(file);
    payload->size = load_number(file);
    payload->bytes = room_for(payload->size, 1);
    load(file, payload->bytes, payload->size);
    load(file, payload->known, sizeof payload->known);
}

/* The states before and after each payload, as the library leaves them. */
static void find_states(struct cases *cases)
{
    uint8_t state[OARCRADLER_SIZE_STATE], answer[OARCRADLER_SIZE_STEREO];
    for (uint32_t k = 0; k < cases->payload_count; k++) {
        struct payload *payload = &cases->payloads[k];
        if (payload->is_first && oarcradler_fresh_state(state, sizeof state) != 0)
            give_up("there is no fresh state");
        memcpy(payload->before, state, sizeof state);
        if (call_stereo(oarcradler_read_stereo, payload, state, answer) != 0)
            give_up("the library refuses payload %u", (unsigned)k);
        memcpy(payload->after, state, sizeof state);
    }
}

/* Those of some words whose tables are in a range are one more list of a kind. */
static void add_list(struct cases *cases, int kind, struct list all, uint32_t first_table, uint32_t last_table)
{
    struct list *list = &cases->lists[kind][cases->list_counts[kind]];
    *list = all;
    list->words = room_for(all.count, sizeof *all.words);
    list->count = 0;
    for (uint32_t k = 0; k < all.count; k += 2)
        if (all.words[k + 1] >= first_table && all.words[k + 1] <= last_table) {
            memcpy(list->words + list->count, all.words + k, 2 * sizeof *all.words);
            list->count += 2;
        }
    if (list->count)
        cases->list_counts[kind]++;
    else
        free(list->words);
}

/* The words of each case, as the Rust program reads them. */
static void find_words(struct cases *cases)
{
    static uint32_t words[2 * MOST_WORDS];
    for (int kind = 0; kind < WORD_KINDS; kind++)
        cases->lists[kind] = room_for((size_t)cases->stream_count + cases->payload_count, sizeof **cases->lists);
    for (uint32_t k = 0; k < cases->stream_count; k++) {
        const struct stream *stream = &cases->streams[k];
        struct list all = { stream->bytes, stream->size, words, 0 };
        all.count = (uint32_t)walk_list_channel(stream->bytes, stream->size, stream->index, words, 2 * MOST_WORDS);
        add_list(cases, FACTOR_WORDS, all, 0, 0);
        add_list(cases, SPECTRAL_WORDS, all, 1, 11);
    }
    for (uint32_t k = 0; k < cases->payload_count; k++) {
        const struct payload *payload = &cases->payloads[k];
        struct list all = { payload->bytes, payload->size, words, 0 };
        all.count = (uint32_t)walk_list_stereo(payload->before, payload->bytes, payload->size, words, 2 * MOST_WORDS);
        add_list(cases, STEREO_WORDS, all, 12, 21);
    }
}

void load_cases(const char *path, struct cases *cases)
{
    FILE *file = fopen(path, "rb");
    if (!file)
        give_up("%s cannot be read", path);
    cases->stream_count = load_number(file);
    cases->payload_count = load_number(file);
    cases->streams = room_for(cases->stream_count, sizeof *cases->streams);
    cases->payloads = room_for(cases->payload_count, sizeof *cases->payloads);
    for (uint32_t k = 0; k < cases->stream_count; k++)
        load_stream(file, &cases->streams[k]);
    for (uint32_t k = 0; k < cases->payload_count; k++)
        load_payload(file, &cases->payloads[k]);
    if (fgetc(file) != EOF)
        give_up("the file of cases has more than its counts say");
    fclose(file);
    find_states(cases);
    find_words(cases);
}
