/* What the parts of the bench share: the candidates that are timed, the cases that they are timed on. */
#ifndef BENCH_H
#define BENCH_H

#include "oarcradler.h"

/* The calls that are timed, as the library has them. */
typedef uint32_t read_channel(const uint8_t *buffer, uint64_t buffer_size, uint64_t start, uint64_t end, uint32_t index, int16_t *lines,
    uint64_t line_count, struct oarcradler_factors *factors, uint64_t factors_size, struct oarcradler_books *books, uint64_t books_size,
    uint8_t *answer, uint64_t answer_size);
typedef uint32_t read_stereo(uint8_t *state, uint64_t state_size, const uint8_t *buffer, uint64_t buffer_size, uint64_t start, uint64_t end,
    uint8_t *answer, uint64_t answer_size);
typedef uint32_t write_stereo(uint8_t *state, uint64_t state_size, const uint8_t *contents, uint64_t contents_size, uint8_t *out,
    uint64_t out_size, uint8_t *answer, uint64_t answer_size);

/* Each word of a list is read where it stands, in a payload that ends at a bit: the sum of entries and of the places after the words, modulo
 * 2^24, a place modulo 2^16. The list has count numbers, two a word: its place, a bit, and its table: 0 the scale factor book, 1 to 11 the books, 12 to 21 those of stereo, as in
 * tables/words.tsv. */
typedef uint32_t read_words(const uint8_t *bytes, uint64_t size, uint32_t end, const uint32_t *words, uint64_t count);

/* One that is timed: its calls; NULL where it has none. */
struct candidate {
    const char *name;
    read_words *words;
    read_channel *channel;
    read_stereo *stereo;
    write_stereo *writing;
};

/* The candidates, and which of them is the library that the others are compared with. */
extern const struct candidate candidates[];
extern const unsigned candidate_count, library;

/* The Rust program's: its trees are built once; the words that it reads of a stream, or of a payload from a state, are listed. */
void walk_prepare(void);
uint64_t walk_list_channel(const uint8_t *bytes, uint64_t size, uint32_t index, uint32_t *words, uint64_t room);
uint64_t walk_list_stereo(const uint8_t *state, const uint8_t *bytes, uint64_t size, uint32_t *words, uint64_t room);

/* What a channel reading writes. */
struct numbers {
    int16_t lines[OARCRADLER_SIZE_LINES];
    struct oarcradler_factors factors;
    struct oarcradler_books books;
    uint8_t answer[OARCRADLER_SIZE_CHANNEL];
};

/* A published channel stream: its bytes, what a reading of it returns and writes. */
struct stream {
    uint8_t *bytes;
    uint32_t size, index, returned;
    struct numbers known;
};

/* A published stereo payload: its bytes, the states before and after it, and what a reading of it writes. */
struct payload {
    uint8_t *bytes;
    uint32_t size, is_first;
    uint8_t before[OARCRADLER_SIZE_STATE], after[OARCRADLER_SIZE_STATE], known[OARCRADLER_SIZE_STEREO];
};

/* The words of one kind in a stream or payload, as read_words takes them. */
struct list {
    const uint8_t *bytes;
    uint32_t size, *words, count;
};

/* The kinds of words. */
enum { FACTOR_WORDS, SPECTRAL_WORDS, STEREO_WORDS, WORD_KINDS };

/* All that is timed. */
struct cases {
    struct stream *streams;
    struct payload *payloads;
    struct list *lists[WORD_KINDS];
    uint32_t stream_count, payload_count, list_counts[WORD_KINDS];
};

/* The cases of a file that bench/cases made, with their states and words. */
void load_cases(const char *path, struct cases *cases);

/* Every candidate gives the known numbers of every case, and all give the same sums of words; the program ends where one does not. */
void check_candidates(const struct cases *cases);

/* Calls over whole buffers. */
uint32_t call_channel(read_channel *channel, const struct stream *stream, struct numbers *numbers);
uint32_t call_stereo(read_stereo *stereo, const struct payload *payload, uint8_t *state, uint8_t *answer);
uint32_t call_writing(write_stereo *writing, const struct payload *payload, uint8_t *state, uint8_t *out, uint8_t *answer);
uint32_t call_words(read_words *words, const struct list *list);

/* A sentence on standard error, and the end with status 1. */
void give_up(const char *format, ...);

/* Room for so many elements, all zero. */
void *room_for(size_t count, size_t size);

#endif
