/* The candidates, and how their calls are made. One that is to be timed too is declared here and has a line in the list. */
#include "bench.h"

#include <stddef.h>

read_words walk_words, oarcradler_bench_scan, oarcradler_bench_lookup;
read_channel walk_read_channel;
read_stereo walk_read_stereo;

#ifdef BEFORE
read_channel before_oarcradler_read_channel;
read_stereo before_oarcradler_read_stereo;
write_stereo before_oarcradler_write_stereo;
#endif

const struct candidate candidates[] = {
    { "library", oarcradler_bench_lookup, oarcradler_read_channel, oarcradler_read_stereo, oarcradler_write_stereo },
#ifdef BEFORE
    { "before", NULL, before_oarcradler_read_channel, before_oarcradler_read_stereo, before_oarcradler_write_stereo },
#endif
    { "scan", oarcradler_bench_scan, NULL, NULL, NULL },
    { "walk", walk_words, walk_read_channel, walk_read_stereo, NULL },
};
const unsigned candidate_count = sizeof candidates / sizeof candidates[0], library = 0;

uint32_t call_channel(read_channel *channel, const struct stream *stream, struct numbers *numbers)
{
    return channel(stream->bytes, stream->size, 0, stream->size, stream->index, numbers->lines, OARCRADLER_SIZE_LINES, &numbers->factors,
        sizeof numbers->factors, &numbers->books, sizeof numbers->books, numbers->answer, sizeof numbers->answer);
}

uint32_t call_stereo(read_stereo *stereo, const struct payload *payload, uint8_t *state, uint8_t *answer)
{
    return stereo(state, OARCRADLER_SIZE_STATE, payload->bytes, payload->size, 0, payload->size, answer, OARCRADLER_SIZE_STEREO);
}

uint32_t call_writing(write_stereo *writing, const struct payload *payload, uint8_t *state, uint8_t *out, uint8_t *answer)
{
    return writing(state, OARCRADLER_SIZE_STATE, payload->known, sizeof payload->known, out, OARCRADLER_MOST_WRITTEN, answer,
        OARCRADLER_SIZE_WRITTEN);
}

uint32_t call_words(read_words *words, const struct list *list)
{
    return words(list->bytes, list->size, 8 * list->size, list->words, list->count);
}
