/* What the programs of this test print alike, and the image that they read alike. */
#ifndef PRINTED_H
#define PRINTED_H

#include "oarcradler.h"

/* A tag image whose header is sound: its bytes, its payload count and its sampling index. */
struct image {
    uint8_t bytes[65536];
    size_t size;
    uint32_t count, index;
};

/* The tag image on standard input. Whether its header is sound; a refusal is printed. */
int read_image(struct image *image);

/* The end of a line that tells a refusal: its number, and its place where it has one. */
void print_refused(uint32_t returned);

/* Words, and numbers of a byte after them. */
void print_bytes(const char *words, const uint8_t *bytes, size_t count);

/* How many lines are not 0. */
unsigned count_sounding(const int16_t *lines);

/* The rows of a channel stream that was read: its windows, books, scale factors and lines. */
void print_rows(const int16_t *lines, const struct oarcradler_factors *factors, const struct oarcradler_books *books, const uint8_t *answer);

#endif
