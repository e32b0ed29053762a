/* Buffers that are lent to a call, with other bytes around them; and what a test says. */
#ifndef LENT_H
#define LENT_H

#include <stddef.h>
#include <stdint.h>

enum { GUARD = 64, MOST_LENT = 70016, ALL_LENT = GUARD + MOST_LENT + GUARD };

/* A buffer of some size, the bytes before and after it, and all of them as they were before the call. */
struct lent {
    size_t size;
    int16_t cells[ALL_LENT / 2];
    uint8_t was[ALL_LENT];
};

/* The calls that were checked, the stereo payloads that were written back, and the channel streams that were wrapped. */
extern unsigned long calls, written_back, wrapped;

/* What is being tested, for the words of a failure. */
extern unsigned long image_number, payload_number;

/* The first byte of the buffer. */
uint8_t *bytes_of(struct lent *lent);

/* A buffer of so many bytes; it and its surroundings hold what follows from the seed. */
uint8_t *lend(struct lent *lent, size_t size, unsigned seed);

/* A buffer that holds these bytes at its front. */
uint8_t *lend_bytes(struct lent *lent, size_t size, unsigned seed, const uint8_t *bytes, size_t count);

/* What the buffer and its surroundings hold is remembered: done before a call. */
void remember(struct lent *lent);

/* A call was made and returned this, a number and a place: it is counted, and goes into the digest. */
void called(uint32_t returned);

/* Some bytes go into the digest: one number for all that the calls gave, what they returned and the bytes that were written. */
void digest_bytes(const uint8_t *bytes, size_t count);

/* The digest, which begins anew. */
uint64_t take_digest(void);

/* Whether every byte but those from one place to another (not included) of the buffer is as it was; those go into the digest. */
int same_but(struct lent *lent, size_t from, size_t to);

/* Whether every byte is as it was. */
int same(struct lent *lent);

/* A fault is counted and said unless the check is good. */
void expect(int good, const char *what);

/* The same of a function, which is named. */
void expect_of(const char *function, int good, const char *what);

/* The same of two numbers. */
void expect_number(uint32_t said, uint32_t wanted, const char *what);

/* The same of what a call returned, which has to be a number and a place. */
void expect_returned(uint32_t returned, uint32_t number, uint32_t place, const char *what);

/* How many faults there were. */
unsigned long faults(void);

#endif
