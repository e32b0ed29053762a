#include "lent.h"

#include <stdio.h>
#include <string.h>

#include "oarcradler.h"

enum { MOST_SAID = 20 };

/* The digest is FNV-1a, of 64 bits. */
#define FIRST_DIGEST 14695981039346656037u
#define DIGEST_FACTOR 1099511628211u

unsigned long calls, written_back, wrapped, image_number, payload_number;
static uint64_t digest = FIRST_DIGEST;
static unsigned long fault_count;

void digest_bytes(const uint8_t *bytes, size_t count)
{
    for (size_t k = 0; k < count; k++)
        digest = (digest ^ bytes[k]) * DIGEST_FACTOR;
}

uint64_t take_digest(void)
{
    uint64_t taken = digest;
    digest = FIRST_DIGEST;
    return taken;
}

void called(uint32_t returned)
{
    const uint8_t bytes[] = { (uint8_t)(returned >> 24), (uint8_t)(returned >> 16), (uint8_t)(returned >> 8), (uint8_t)returned };
    calls++;
    digest_bytes(bytes, sizeof bytes);
}

uint8_t *bytes_of(struct lent *lent)
{
    return (uint8_t *)lent->cells + GUARD;
}

uint8_t *lend(struct lent *lent, size_t size, unsigned seed)
{
    uint8_t *all = (uint8_t *)lent->cells;
    expect(size <= MOST_LENT, "a test lends too long a buffer");
    lent->size = size;
    for (size_t k = 0; k < GUARD + size + GUARD; k++) {
        seed = seed * 1103515245u + 12345u;
        all[k] = (uint8_t)(seed >> 16);
    }
    return bytes_of(lent);
}

uint8_t *lend_bytes(struct lent *lent, size_t size, unsigned seed, const uint8_t *bytes, size_t count)
{
    lend(lent, size, seed);
    memcpy(bytes_of(lent), bytes, count < size ? count : size);
    return bytes_of(lent);
}

void remember(struct lent *lent)
{
    memcpy(lent->was, lent->cells, GUARD + lent->size + GUARD);
}

int same_but(struct lent *lent, size_t from, size_t to)
{
    const uint8_t *all = (const uint8_t *)lent->cells;
    size_t after = GUARD + to, whole = GUARD + lent->size + GUARD;
    digest_bytes(all + GUARD + from, to - from);
    return memcmp(all, lent->was, GUARD + from) == 0 && memcmp(all + after, lent->was + after, whole - after) == 0;
}

int same(struct lent *lent)
{
    return same_but(lent, 0, 0);
}

void expect(int good, const char *what)
{
    if (good)
        return;
    if (fault_count++ < MOST_SAID)
        printf("image %lu payload %lu: %s\n", image_number, payload_number, what);
}

void expect_of(const char *function, int good, const char *what)
{
    if (!good && fault_count < MOST_SAID)
        printf("%s: ", function);
    expect(good, what);
}

void expect_number(uint32_t said, uint32_t wanted, const char *what)
{
    if (said != wanted && fault_count < MOST_SAID)
        printf("%u wanted, %u said: ", (unsigned)wanted, (unsigned)said);
    expect(said == wanted, what);
}

void expect_returned(uint32_t returned, uint32_t number, uint32_t place, const char *what)
{
    int good = oarcradler_number(returned) == number && oarcradler_place(returned) == place;
    if (!good && fault_count < MOST_SAID)
        printf("%u at %u wanted, %u at %u said: ", (unsigned)number, (unsigned)place, (unsigned)oarcradler_number(returned),
            (unsigned)oarcradler_place(returned));
    expect(good, what);
}

unsigned long faults(void)
{
    return fault_count;
}
