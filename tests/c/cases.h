/* The parts of the test: calls with known numbers, and the payloads of an image. */
#ifndef CASES_H
#define CASES_H

#include <stddef.h>
#include <stdint.h>

/* A fresh state, and sound and unsound bytes of a state. */
void test_states(void);

/* Stereo payloads, channel streams, images and ADTS frames with known numbers. */
void test_known_stereo(void);
void test_known_channel(void);
void test_known_image(void);
void test_known_frame(void);

/* The header's constants. */
void test_face(void);

/* Null pointers with length 0. */
void test_nulls(void);

/* An image: its header, its parts, each payload. */
void test_image(const uint8_t *image, size_t size);

/* A channel stream: read, and refused in every way. */
void test_channel_payload(const uint8_t *payload, size_t size, uint32_t index);

/* A channel stream: wrapped as a frame, that frame read and cut again, and refused in every way. */
void test_wrapped_payload(const uint8_t *payload, size_t size, uint32_t index);

/* An image of some size is begun: what is altered from here on does not hang on what came before. */
void begin_altering(size_t size);

/* A stereo payload: read, refused in every way, written back; the state moves on. */
void test_stereo_payload(uint8_t *state, const uint8_t *payload, size_t size);

#endif
