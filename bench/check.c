/* Whether what is timed gives the right answers: every candidate the known numbers of every case, all the same sums of words. */
#include "bench.h"

#include <string.h>

/* What lent buffers hold before a call, so that what is not written, or written past its end, is seen. */
enum { PAINT = 0xa5 };

/* A stream's known numbers are written, or nothing where it is refused. */
static void check_channel(const struct candidate *candidate, const struct stream *stream, uint32_t k)
{
    struct numbers found, wanted;
    memset(&found, PAINT, sizeof found);
    memset(&wanted, PAINT, sizeof wanted);
    if (stream->returned == 0) {
        memcpy(wanted.lines, stream->known.lines, sizeof wanted.lines);
        wanted.factors = stream->known.factors;
        wanted.books = stream->known.books;
        memcpy(wanted.answer, stream->known.answer, sizeof wanted.answer);
    }
    uint32_t returned = call_channel(candidate->channel, stream, &found);
    if (returned != stream->returned)
        give_up("%s returns %u of stream %u, and not %u", candidate->name, (unsigned)returned, (unsigned)k, (unsigned)stream->returned);
    if (memcmp(&found, &wanted, sizeof found) != 0)
        give_up("%s gives other numbers of stream %u than the known ones", candidate->name, (unsigned)k);
}

static void check_stereo(const struct candidate *candidate, const struct payload *payload, uint32_t k)
{
    uint8_t state[OARCRADLER_SIZE_STATE], answer[OARCRADLER_SIZE_STEREO];
    memcpy(state, payload->before, sizeof state);
    memset(answer, PAINT, sizeof answer);
    uint32_t returned = call_stereo(candidate->stereo, payload, state, answer);
    if (returned != 0)
        give_up("%s returns %u of payload %u", candidate->name, (unsigned)returned, (unsigned)k);
    if (memcmp(answer, payload->known, sizeof answer) != 0)
        give_up("%s gives other numbers of payload %u than the known ones", candidate->name, (unsigned)k);
    if (memcmp(state, payload->after, sizeof state) != 0)
        give_up("%s leaves another state after payload %u than the library", candidate->name, (unsigned)k);
}

/* The contents of a payload are written as its bytes. */
static void check_writing(const struct candidate *candidate, const struct payload *payload, uint32_t k)
{
    uint8_t state[OARCRADLER_SIZE_STATE], out[OARCRADLER_MOST_WRITTEN], answer[OARCRADLER_SIZE_WRITTEN];
    memcpy(state, payload->before, sizeof state);
    memset(out, PAINT, sizeof out);
    uint32_t returned = call_writing(candidate->writing, payload, state, out, answer);
    if (returned != 0)
        give_up("%s returns %u where it writes payload %u", candidate->name, (unsigned)returned, (unsigned)k);
    if (memcmp(answer, payload->known, sizeof answer) != 0 || memcmp(out, payload->bytes, payload->size) != 0)
        give_up("%s writes payload %u in other bytes", candidate->name, (unsigned)k);
    if (out[payload->size] != PAINT)
        give_up("%s writes past payload %u", candidate->name, (unsigned)k);
    if (memcmp(state, payload->after, sizeof state) != 0)
        give_up("%s leaves another state after it wrote payload %u", candidate->name, (unsigned)k);
}

/* The sums of words are those of the first candidate that reads words. */
static void check_words(const struct candidate *candidate, const struct list *list, uint32_t k)
{
    const struct candidate *first = candidates;
    while (!first->words)
        first++;
    uint32_t sum = call_words(candidate->words, list), wanted = call_words(first->words, list);
    if (sum != wanted || sum == 0)
        give_up("%s gives the sum %u of the words of list %u, and %s %u", candidate->name, (unsigned)sum, (unsigned)k, first->name,
            (unsigned)wanted);
}

void check_candidates(const struct cases *cases)
{
    for (const struct candidate *candidate = candidates; candidate < candidates + candidate_count; candidate++) {
        for (uint32_t k = 0; candidate->channel && k < cases->stream_count; k++)
            check_channel(candidate, &cases->streams[k], k);
        for (uint32_t k = 0; candidate->stereo && k < cases->payload_count; k++)
            check_stereo(candidate, &cases->payloads[k], k);
        for (uint32_t k = 0; candidate->writing && k < cases->payload_count; k++)
            check_writing(candidate, &cases->payloads[k], k);
        for (int kind = 0; kind < WORD_KINDS; kind++)
            for (uint32_t k = 0; candidate->words && k < cases->list_counts[kind]; k++)
                check_words(candidate, &cases->lists[kind][k], k);
    }
}
