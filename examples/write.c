/* write: reads a level difference, -7 to 7, from standard input and prints the stereo payload that tells it for every band, in hexadecimal.
 * It is a restart, so a reader takes it in whatever state it is. */
#include <stdio.h>
#include <string.h>

#include "oarcradler.h"

enum { COARSE_BANDS = 10 };

/* The contents of such a payload: a header with IID and ICC in mode 0, and one envelope, coded across frequency; all else is 0. */
static void fill_contents(uint8_t *contents, int level)
{
    uint8_t *indices = contents + OARCRADLER_AT_STEREO_FIRST + OARCRADLER_AT_ROW_IID + 1;
    memset(contents, 0, OARCRADLER_SIZE_STEREO);
    contents[OARCRADLER_AT_STEREO_HEADER] = 1;
    contents[OARCRADLER_AT_STEREO_IID_ON] = 1;
    contents[OARCRADLER_AT_STEREO_ICC_ON] = 1;
    contents[OARCRADLER_AT_STEREO_ENVELOPES] = 1;
    for (int band = 0; band < COARSE_BANDS; band++)
        indices[band] = (uint8_t)level;
}

/* A level that no payload can tell is refused by its number. */
int main(void)
{
    uint8_t state[OARCRADLER_SIZE_STATE], contents[OARCRADLER_SIZE_STEREO], out[OARCRADLER_MOST_WRITTEN];
    uint8_t answer[OARCRADLER_SIZE_WRITTEN];
    int level;
    if (scanf("%d", &level) != 1 || level < -128 || level > 127) {
        fputs("write: standard input has no level\n", stderr);
        return 1;
    }
    fill_contents(contents, level);
    uint32_t returned = oarcradler_fresh_state(state, sizeof state);
    if (returned == OARCRADLER_DONE)
        returned = oarcradler_write_stereo(state, sizeof state, contents, sizeof contents, out, sizeof out, answer, sizeof answer);
    if (returned != OARCRADLER_DONE) {
        fprintf(stderr, "write: refused %u, %s: %s\n", (unsigned)oarcradler_number(returned), oarcradler_name(returned),
            oarcradler_sentence(returned));
        return 1;
    }
    for (uint32_t k = 0; k < (oarcradler_word(answer + OARCRADLER_AT_WRITTEN_BITS) + 7) / 8; k++)
        printf("%02x", (unsigned)out[k]);
    if (puts("") < 0 || fclose(stdout) != 0) {
        fputs("write: standard output cannot be written\n", stderr);
        return 1;
    }
    return 0;
}
