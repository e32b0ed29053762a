/* The name and the sentence of each number that comes back, for a log. A program that wants them is compiled with this file. */
#include "oarcradler.h"

static const struct {
    uint32_t number;
    const char *name, *sentence;
} numbers[] = {
    { OARCRADLER_DONE, "DONE", "read, or written" },
    { OARCRADLER_REFUSED_BAD_RANGE, "BAD_RANGE", "range outside the buffer, or its start after its end; no such payload" },
    { OARCRADLER_REFUSED_TOO_SHORT, "TOO_SHORT", "a lent output is too short" },
    { OARCRADLER_REFUSED_UNKNOWN_INDEX, "UNKNOWN_INDEX", "sampling index not 3, 4, 6 or 7" },
    { OARCRADLER_REFUSED_UNSOUND_STATE, "UNSOUND_STATE", "stereo state unsound" },
    { OARCRADLER_REFUSED_UNSOUND_IMAGE, "UNSOUND_IMAGE", "image header unsound" },
    { OARCRADLER_REFUSED_NO_BITS, "NO_BITS", "bits ran out" },
    { OARCRADLER_REFUSED_NO_WORD, "NO_WORD", "no code word fits" },
    { OARCRADLER_REFUSED_BITS_LEFT, "BITS_LEFT", "more than 7 bits left after the payload" },
    { OARCRADLER_REFUSED_RESERVED, "RESERVED", "reserved bit, mode or extension id used" },
    { OARCRADLER_REFUSED_UNUSED_TOOL, "UNUSED_TOOL", "prediction, TNS or gain control flagged" },
    { OARCRADLER_REFUSED_MAX_SFB, "MAX_SFB", "max_sfb above the number of bands" },
    { OARCRADLER_REFUSED_SECTION, "SECTION", "section of length 0, or past max_sfb" },
    { OARCRADLER_REFUSED_BOOK, "BOOK", "book 12, 13, 14 or 15" },
    { OARCRADLER_REFUSED_FACTOR, "FACTOR", "scale factor outside 0..255" },
    { OARCRADLER_REFUSED_PULSE, "PULSE", "pulses with short windows, or pulse start or line too high" },
    { OARCRADLER_REFUSED_MAGNITUDE, "MAGNITUDE", "magnitude above 8191" },
    { OARCRADLER_REFUSED_TIME_CODING, "TIME_CODING", "time coding where the mode differs" },
    { OARCRADLER_REFUSED_INDEX, "INDEX", "index outside its range" },
    { OARCRADLER_REFUSED_EXTENSION, "EXTENSION", "extension too small for its contents, or a second v0 in it" },
    { OARCRADLER_REFUSED_NO_MODE, "NO_MODE", "phase data with no IID mode ever sent" },
    { OARCRADLER_REFUSED_OUT_OF_STEP, "OUT_OF_STEP", "out of step and not a restart" },
    { OARCRADLER_REFUSED_CANNOT_BE_WRITTEN, "CANNOT_BE_WRITTEN", "contents that can't be written" },
    { OARCRADLER_REFUSED_NO_SYNC, "NO_SYNC", "a frame does not begin with the sync word" },
    { OARCRADLER_REFUSED_OTHER_FRAME, "OTHER_FRAME",
        "a frame with another layer, profile, index or channels, with check words or more blocks" },
    { OARCRADLER_REFUSED_FRAME_SIZE, "FRAME_SIZE", "frame length below 7, or past the bytes there" },
    { OARCRADLER_REFUSED_OTHER_ELEMENT, "OTHER_ELEMENT", "another element than the channel's or, after it, than the end" },
};

/* The row of the number that was returned; past the last where it is none. */
static size_t row_of(uint32_t returned)
{
    size_t row = 0;
    while (row < sizeof numbers / sizeof *numbers && numbers[row].number != oarcradler_number(returned))
        row++;
    return row;
}

const char *oarcradler_name(uint32_t returned)
{
    size_t row = row_of(returned);
    return row < sizeof numbers / sizeof *numbers ? numbers[row].name : "UNKNOWN";
}

const char *oarcradler_sentence(uint32_t returned)
{
    size_t row = row_of(returned);
    return row < sizeof numbers / sizeof *numbers ? numbers[row].sentence : "no number that comes back";
}
