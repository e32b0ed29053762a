/* bench CASES ROUNDS: how long each candidate takes for a word, a channel stream, a stereo payload and a written one. In each round every
 * candidate goes over all cases of a row, in turn, twice: once untimed, then timed, both from the same buffers. The median of all rounds is
 * printed, in nanoseconds of thread CPU time, and of the ratios to the library in each round. */
#define _POSIX_C_SOURCE 200809L
#include "bench.h"

#include <stdio.h>
#include <stdlib.h>
#include <string.h>
#include <time.h>

/* Stereo payloads are small up to so many bytes, and large above. */
enum { SMALL = 32, MOST_ROWS = 16, MOST_CANDIDATES = 8 };

/* What is called. */
enum work { WORDS, CHANNEL, STEREO, WRITING };

/* A row of the table: what is called, on which cases, how many units that is, and how long each candidate took in each round. */
struct row {
    char name[48];
    enum work work;
    int first_kind, last_kind;
    uint32_t least, most;
    uint64_t units;
    double *times[MOST_CANDIDATES];
};

static struct cases cases;
static struct row rows[MOST_ROWS];
static unsigned row_count, rounds;

/* Room for a number a round, and how wide the middle half of the rounds is, where it is widest. */
static double *sorted, widest;

/* What is lent to the calls. Each payload has a state of its own. */
static struct numbers numbers;
static uint8_t (*states)[OARCRADLER_SIZE_STATE];
static uint8_t answer[OARCRADLER_SIZE_STEREO], out[OARCRADLER_MOST_WRITTEN];

/* What the calls returned, summed, so that no call can be left out. */
static volatile uint32_t returned;

static int has_call(const struct candidate *candidate, enum work work)
{
    switch (work) {
    case WORDS: return candidate->words != NULL;
    case CHANNEL: return candidate->channel != NULL;
    case STEREO: return candidate->stereo != NULL;
    default: return candidate->writing != NULL;
    }
}

static int is_in(const struct row *row, const struct payload *payload)
{
    return payload->size >= row->least && payload->size <= row->most;
}

/* All buffers as they are before each pass. */
static void set_up(void)
{
    memset(&numbers, 0, sizeof numbers);
    memset(answer, 0, sizeof answer);
    memset(out, 0, sizeof out);
    for (uint32_t k = 0; k < cases.payload_count; k++)
        memcpy(states[k], cases.payloads[k].before, sizeof states[k]);
}

/* Every case of a row, once. */
static void pass(const struct row *row, const struct candidate *candidate)
{
    uint32_t sum = 0;
    if (row->work == WORDS)
        for (int kind = row->first_kind; kind <= row->last_kind; kind++)
            for (uint32_t k = 0; k < cases.list_counts[kind]; k++)
                sum += call_words(candidate->words, &cases.lists[kind][k]);
    else if (row->work == CHANNEL)
        for (uint32_t k = 0; k < cases.stream_count; k++)
            sum += call_channel(candidate->channel, &cases.streams[k], &numbers);
    else
        for (uint32_t k = 0; k < cases.payload_count; k++) {
            const struct payload *payload = &cases.payloads[k];
            if (!is_in(row, payload))
                continue;
            sum += row->work == STEREO ? call_stereo(candidate->stereo, payload, states[k], answer)
                                       : call_writing(candidate->writing, payload, states[k], out, answer);
        }
    returned += sum;
}

/* The thread's CPU time so far, in nanoseconds. */
static uint64_t now(void)
{
    struct timespec time;
    if (clock_gettime(CLOCK_THREAD_CPUTIME_ID, &time) != 0)
        give_up("this system has no clock of a thread's CPU time");
    return (uint64_t)time.tv_sec * 1000000000u + (uint64_t)time.tv_nsec;
}

static double timed_pass(const struct row *row, const struct candidate *candidate)
{
    set_up();
    pass(row, candidate);
    set_up();
    uint64_t began = now();
    pass(row, candidate);
    return (double)(now() - began);
}

/* Every row in every round, by the candidates in turn; another one begins in each round. */
static void time_all(void)
{
    for (unsigned round = 0; round < rounds; round++)
        for (struct row *row = rows; row < rows + row_count; row++)
            for (unsigned turn = 0; turn < candidate_count; turn++) {
                unsigned k = (round + turn) % candidate_count;
                if (has_call(&candidates[k], row->work))
                    row->times[k][round] = timed_pass(row, &candidates[k]);
            }
}

static struct row *add_row(const char *name, enum work work)
{
    struct row *row = &rows[row_count++];
    snprintf(row->name, sizeof row->name, "%s", name);
    row->work = work;
    for (unsigned k = 0; k < candidate_count; k++)
        row->times[k] = room_for(rounds, sizeof *row->times[k]);
    return row;
}

static void add_words(const char *name, int first_kind, int last_kind)
{
    struct row *row = add_row(name, WORDS);
    row->first_kind = first_kind;
    row->last_kind = last_kind;
    for (int kind = first_kind; kind <= last_kind; kind++)
        for (uint32_t k = 0; k < cases.list_counts[kind]; k++)
            row->units += cases.lists[kind][k].count / 2;
}

/* The small payloads and the large ones, as two rows. */
static void add_payloads(const char *name, enum work work)
{
    char text[48];
    snprintf(text, sizeof text, "%s, to %d bytes", name, SMALL);
    struct row *small = add_row(text, work);
    small->most = SMALL;
    snprintf(text, sizeof text, "%s, above", name);
    struct row *large = add_row(text, work);
    large->least = SMALL + 1;
    large->most = UINT32_MAX;
    for (uint32_t k = 0; k < cases.payload_count; k++)
        (is_in(small, &cases.payloads[k]) ? small : large)->units++;
}

static void add_rows(void)
{
    add_words("word", FACTOR_WORDS, STEREO_WORDS);
    add_words("  of the scale factor book", FACTOR_WORDS, FACTOR_WORDS);
    add_words("  of books 1 to 11", SPECTRAL_WORDS, SPECTRAL_WORDS);
    add_words("  of the stereo tables", STEREO_WORDS, STEREO_WORDS);
    add_row("channel stream", CHANNEL)->units = cases.stream_count;
    add_payloads("stereo payload", STEREO);
    add_payloads("written payload", WRITING);
}

static int by_size(const void *a, const void *b)
{
    double first = *(const double *)a, second = *(const double *)b;
    return (first > second) - (first < second);
}

/* What stands in the middle of as many numbers as there are rounds; they are sorted. */
static double middle_of(double *some)
{
    qsort(some, rounds, sizeof *some, by_size);
    return (some[rounds / 2] + some[(rounds - 1) / 2]) / 2;
}

/* The median of a candidate's rounds, for one unit of a row; 0 where it has no such call. How wide the middle half of the rounds is, to the
 * median, is kept where it is wider than any before. */
static double median(const struct row *row, unsigned k)
{
    if (!has_call(&candidates[k], row->work))
        return 0;
    for (unsigned round = 0; round < rounds; round++)
        sorted[round] = row->times[k][round];
    double middle = middle_of(sorted), width = (sorted[3 * (rounds - 1) / 4] - sorted[(rounds - 1) / 4]) / middle;
    if (width > widest)
        widest = width;
    return middle / (double)row->units;
}

/* The median of the ratios of a candidate to the library, each in one round; 0 where one of them has no such call. */
static double median_ratio(const struct row *row, unsigned k)
{
    if (!has_call(&candidates[k], row->work) || !has_call(&candidates[library], row->work))
        return 0;
    for (unsigned round = 0; round < rounds; round++)
        sorted[round] = row->times[k][round] / row->times[library][round];
    return middle_of(sorted);
}

/* A number in its column, or a dash where there is none. */
static void print_cell(int width, int digits, double number)
{
    if (number > 0)
        printf("%*.*f", width, digits, number);
    else
        printf("%*s", width, "-");
}

static void print_counts(void)
{
    uint32_t refused = 0;
    uint64_t stream_bytes = 0, payload_bytes = 0;
    for (uint32_t k = 0; k < cases.stream_count; k++) {
        refused += cases.streams[k].returned != 0;
        stream_bytes += cases.streams[k].size;
    }
    for (uint32_t k = 0; k < cases.payload_count; k++)
        payload_bytes += cases.payloads[k].size;
    printf("channel streams  %u of %llu bytes, %u of them refused\n", (unsigned)cases.stream_count, (unsigned long long)stream_bytes,
        (unsigned)refused);
    printf("stereo payloads  %u of %llu bytes\n", (unsigned)cases.payload_count, (unsigned long long)payload_bytes);
    printf("rounds           %u\n\n", rounds);
}

static void print_table(void)
{
    printf("%-32s%8s", "ns of thread CPU time, medians", "count");
    for (unsigned k = 0; k < candidate_count; k++)
        printf("%12s", candidates[k].name);
    for (unsigned k = 0; k < candidate_count; k++)
        if (k != library)
            printf("%9s/%s", candidates[k].name, candidates[library].name);
    printf("\n");
    for (const struct row *row = rows; row < rows + row_count; row++) {
        printf("%-32s%8llu", row->name, (unsigned long long)row->units);
        for (unsigned k = 0; k < candidate_count; k++)
            print_cell(12, 1, median(row, k));
        for (unsigned k = 0; k < candidate_count; k++)
            if (k != library)
                print_cell(10 + (int)strlen(candidates[library].name), 2, median_ratio(row, k));
        printf("\n");
    }
    printf("\nA ratio is the median of those in each round. The middle half of the rounds is at most %.0f %% of its median wide.\n",
        100 * widest);
}

int main(int count, char **words)
{
    rounds = count == 3 ? (unsigned)strtoul(words[2], NULL, 10) : 0;
    if (rounds == 0 || rounds > 999999)
        give_up("usage: bench CASES ROUNDS");
    walk_prepare();
    load_cases(words[1], &cases);
    check_candidates(&cases);
    states = room_for(cases.payload_count, sizeof *states);
    sorted = room_for(rounds, sizeof *sorted);
    add_rows();
    print_counts();
    time_all();
    print_table();
    if (fclose(stdout) != 0)
        give_up("standard output cannot be written");
    return 0;
}
