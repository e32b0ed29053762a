/* harness: every function of the archive, called with known numbers and then with each payload of the images on standard input. How many there
 * are stands there in four bytes, the most significant first, then each as its length in four bytes and its bytes. A line an image is printed:
 * a number for its bytes and one for all that the calls gave, so that runs on two processors can be held together. */
#include <stdio.h>

#include "cases.h"
#include "lent.h"
#include "oarcradler.h"

enum { LEAST_CALLS = 400000, LEAST_WRITTEN = 2000, LEAST_WRAPPED = 2000 };

/* The next word of standard input. */
static uint32_t next_word(void)
{
    uint8_t word[4] = { 0 };
    expect(fread(word, 1, sizeof word, stdin) == sizeof word, "a word of the input is not there");
    return oarcradler_word(word);
}

/* The next image. Its size. */
static size_t next_image(uint8_t *image, size_t room)
{
    size_t size = next_word();
    expect(size <= room && fread(image, 1, size, stdin) == size, "an image is too long, or not there");
    return size <= room ? size : 0;
}

/* The halves of a number: not every C library prints one of 64 bits. */
static unsigned long upper(uint64_t number)
{
    return (unsigned long)(number >> 32);
}

static unsigned long lower(uint64_t number)
{
    return (unsigned long)(number & 0xffffffff);
}

/* What was called, and what the calls gave. */
static void print_digest(const char *what, const uint8_t *bytes, size_t size)
{
    uint64_t given = take_digest();
    digest_bytes(bytes, size);
    uint64_t named = take_digest();
    printf("%s %08lx%08lx gave %08lx%08lx\n", what, upper(named), lower(named), upper(given), lower(given));
}

/* Known numbers first, then the images. */
int main(void)
{
    static uint8_t image[MOST_LENT];
    uint32_t images = next_word();
    test_face();
    test_states();
    test_known_stereo();
    test_known_channel();
    test_known_image();
    test_known_frame();
    test_nulls();
    print_digest("known", image, 0);
    while (image_number < images) {
        size_t size = next_image(image, sizeof image);
        image_number++;
        test_image(image, size);
        print_digest("image", image, size);
    }
    printf("%lu calls checked, %lu payloads written back, %lu wrapped, %lu faults\n", calls, written_back, wrapped, faults());
    return faults() != 0 || calls < LEAST_CALLS || written_back < LEAST_WRITTEN || wrapped < LEAST_WRAPPED;
}
