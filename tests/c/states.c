/* The stereo state's bytes: a fresh state, and which bytes are sound. */
#include <string.h>

#include "calls.h"
#include "cases.h"
#include "oarcradler.h"

static const size_t records[4] = { OARCRADLER_AT_STATE_IID, OARCRADLER_AT_STATE_ICC, OARCRADLER_AT_STATE_IPD, OARCRADLER_AT_STATE_OPD };

/* The fresh state as the rules say it. */
static void fresh(uint8_t *state)
{
    memset(state, 0, OARCRADLER_SIZE_STATE);
    state[OARCRADLER_AT_STATE_IID_MODE] = state[OARCRADLER_AT_STATE_ICC_MODE] = 7;
    state[OARCRADLER_AT_STATE_IN_STEP] = 1;
    for (int kind = 0; kind < 4; kind++)
        state[records[kind]] = 7;
}

/* A fresh state in buffers of each size. */
static void test_fresh(void)
{
    static struct lent lent;
    uint8_t wanted[OARCRADLER_SIZE_STATE];
    fresh(wanted);
    for (unsigned size = 0; size < 200; size++) {
        lend(&lent, size, size);
        expect_number(call_fresh(&lent), size < 146 ? 2 : 0, "fresh_state of some size");
        expect(size < 146 || memcmp(bytes_of(&lent), wanted, sizeof wanted) == 0, "fresh_state: not the fresh state");
    }
}

/* Every call that takes a state: 4 and nothing touched where it is unsound. */
static void test_unsound(const uint8_t *state, size_t size)
{
    static struct stereo_call read;
    static struct write_call write;
    static struct lent report;
    lend_bytes(&report, size, 1, state, size);
    expect_number(call_missing(&report), 4, "report_missing of an unsound state");
    lend_bytes(&read.state, size, 2, state, size);
    lend(&read.buffer, 1, 3)[0] = 0;
    lend(&read.answer, OARCRADLER_SIZE_STEREO, 4);
    expect_number(call_read_stereo(&read, 0, 1), 4, "read_stereo of an unsound state");
    expect_number(call_read_stereo(&read, 0, 0), 4, "read_stereo of an unsound state and no bits");
    expect_number(call_read_stereo(&read, 1, 0), 1, "read_stereo of an unsound state and a bad range");
    lend_bytes(&write.state, size, 5, state, size);
    lend(&write.contents, 581, 6);
    lend(&write.out, 0, 7);
    lend(&write.answer, OARCRADLER_SIZE_WRITTEN, 8);
    expect_number(call_write_stereo(&write), 4, "write_stereo of an unsound state");
}

/* The state with one byte altered is unsound. */
static void test_altered(const uint8_t *state, size_t place, unsigned value)
{
    uint8_t altered[OARCRADLER_SIZE_STATE];
    memcpy(altered, state, sizeof altered);
    altered[place] = (uint8_t)value;
    test_unsound(altered, sizeof altered);
}

/* Flags and modes that are none, and too few bytes. */
static void test_bad_heads(const uint8_t *state)
{
    static const size_t flags[4] = { OARCRADLER_AT_STATE_IID_ON, OARCRADLER_AT_STATE_ICC_ON, OARCRADLER_AT_STATE_EXTENSION_ON, OARCRADLER_AT_STATE_IN_STEP };
    for (unsigned value = 2; value < 256; value++)
        for (int flag = 0; flag < 4; flag++)
            test_altered(state, flags[flag], value);
    for (unsigned value = 6; value < 256; value++) {
        if (value == 7)
            continue;
        test_altered(state, OARCRADLER_AT_STATE_IID_MODE, value);
        test_altered(state, OARCRADLER_AT_STATE_ICC_MODE, value);
        for (int kind = 0; kind < 4; kind++)
            test_altered(state, records[kind], value);
    }
    for (size_t size = 0; size < OARCRADLER_SIZE_STATE; size++)
        test_unsound(state, size);
}

/* How many bands a kind has in a mode, by the rules. */
static int band_count(int kind, int mode)
{
    static const int levels[3] = { 10, 20, 34 }, phases[3] = { 5, 11, 17 };
    if (mode == 7)
        return 0;
    return kind < 2 ? levels[mode % 3] : phases[mode % 3];
}

/* Whether an index may stand in a record. */
static int may_stand(int kind, int mode, int band, int index)
{
    int most = kind == 0 && mode >= 3 ? 15 : 7, least = kind == 0 ? -most : 0;
    if (band >= band_count(kind, mode))
        return index == 0;
    return least <= index && index <= most;
}

/* Every byte at every place of a record in every mode. */
static void test_record(int kind, int mode)
{
    static struct lent lent;
    uint8_t state[OARCRADLER_SIZE_STATE];
    fresh(state);
    state[records[kind]] = (uint8_t)mode;
    for (int band = 0; band < OARCRADLER_SIZE_INDICES; band++)
        for (int value = 0; value < 256; value++) {
            int stands = may_stand(kind, mode, band, value < 128 ? value : value - 256);
            lend_bytes(&lent, sizeof state, (unsigned)value, state, sizeof state);
            bytes_of(&lent)[records[kind] + 1 + (size_t)band] = (uint8_t)value;
            expect_number(call_missing(&lent), stands ? 0 : 4, "report_missing: an index of a record");
            if (!stands && value % 64 == 63)
                test_unsound(bytes_of(&lent), sizeof state);
        }
}

/* A kind is enabled only where a mode was sent for it. */
static void test_enabled(void)
{
    static struct lent lent;
    for (size_t kind = 0; kind < 2; kind++)
        for (int mode = 0; mode < 256; mode++) {
            lend(&lent, OARCRADLER_SIZE_STATE, 1);
            fresh(bytes_of(&lent));
            bytes_of(&lent)[kind] = 1;
            bytes_of(&lent)[OARCRADLER_AT_STATE_IID_MODE + kind] = (uint8_t)mode;
            expect_number(call_missing(&lent), mode <= 5 ? 0 : 4, "report_missing: an enabled kind and its mode");
        }
    uint8_t state[OARCRADLER_SIZE_STATE];
    fresh(state);
    test_altered(state, OARCRADLER_AT_STATE_IID_ON, 1);
    test_altered(state, OARCRADLER_AT_STATE_ICC_ON, 1);
}

void test_states(void)
{
    uint8_t state[OARCRADLER_SIZE_STATE];
    test_fresh();
    fresh(state);
    test_bad_heads(state);
    state[OARCRADLER_AT_STATE_IN_STEP] = 0;
    test_bad_heads(state);
    for (int kind = 0; kind < 4; kind++)
        for (int mode = 0; mode <= 7; mode++)
            if (mode != 6)
                test_record(kind, mode);
    test_enabled();
}
