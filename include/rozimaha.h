/* Rozimaha: G.711 and G.722 for C. Link target/staticlib/libcalls.a, which `make archive` builds, for x86-64.
 *
 * Samples are 16-bit numbers as two bytes each: the low byte, then the high byte.
 *
 * Each call answers a number; docs/RULES.md, "Answers", says more:
 *   0  done: the results are the first bytes of each output; what lies past them is as it was
 *   1  a start that is neither 0 nor 1
 *   3  an odd count of bytes where samples are read; in G.722 encoding also an odd count of samples, except at rate 8000
 *   4  an output is shorter than what is written into it, or fewer than ROZIMAHA_MARK_LENGTH bytes are lent for a new mark
 *   5  the session's position would pass 4294967295
 *   6  the mark is no mark line
 *   7  the mark is that of the other kind of session
 *   8  a number of the mark is outside its bounds
 * Any number but 0 leaves every output as it was. Where several apply, 1 comes before 4 in the calls that begin; in the
 * others 6 comes before 7, 7 before 8, 8 before 3, 3 before 4, 4 before 5. An empty input needs no room in `out`; a G.722
 * call still needs a sound mark, and room for the new one.
 *
 * The caller must ensure that each pointer is valid for its count of bytes, which any pointer is for a count of 0, null
 * too; and that no output overlaps an input or another output, old and new mark included. Nothing is kept between calls,
 * so calls may run at the same time.
 */
#ifndef ROZIMAHA_H
#define ROZIMAHA_H

#include <stddef.h>
#include <stdint.h>

/* The room that a new mark needs: no mark line that these calls write is longer. */
#define ROZIMAHA_MARK_LENGTH 512

#ifdef __cplusplus
extern "C" {
#endif

/* Mu-law, samples to bytes: input_len / 2 bytes are written. Answers 0, 3 or 4. */
uint32_t rozimaha_pcmu_encode(const uint8_t *input, size_t input_len, uint8_t *out, size_t out_len);

/* Mu-law, bytes to samples: 2 * input_len bytes are written. Answers 0 or 4. */
uint32_t rozimaha_pcmu_decode(const uint8_t *input, size_t input_len, uint8_t *out, size_t out_len);

/* A-law, samples to bytes: input_len / 2 bytes are written. Answers 0, 3 or 4. */
uint32_t rozimaha_pcma_encode(const uint8_t *input, size_t input_len, uint8_t *out, size_t out_len);

/* A-law, bytes to samples: 2 * input_len bytes are written. Answers 0 or 4. */
uint32_t rozimaha_pcma_decode(const uint8_t *input, size_t input_len, uint8_t *out, size_t out_len);

/* G.722. A session lives in its mark, a line of text that ends at its first newline. A call takes the mark up, codes the
 * input and writes the mark of the session after it; pass that line to the next call, with exactly its own length, newline
 * included. At rate 8000 a byte stands for one sample; every other rate means 16 kHz, two samples a byte. */

/* Writes the mark of a fresh session of a rate and a start, 0 (every number 0) or 1 (the standard's). Answers 0, 1, or 4
 * where mark_len is less than the line's length; ROZIMAHA_MARK_LENGTH is always enough. */
uint32_t rozimaha_g722_begin_encoder(uint32_t rate, uint32_t start, uint8_t *mark, size_t mark_len);
uint32_t rozimaha_g722_begin_decoder(uint32_t rate, uint32_t start, uint8_t *mark, size_t mark_len);

/* Samples to bytes: a byte for each two samples, at rate 8000 for each, and the new mark, for which at least
 * ROZIMAHA_MARK_LENGTH bytes must be lent. Answers 0, 3, 4, 5, 6, 7 or 8. */
uint32_t rozimaha_g722_encode(const uint8_t *mark, size_t mark_len, const uint8_t *input, size_t input_len,
                              uint8_t *out, size_t out_len, uint8_t *new_mark, size_t new_mark_len);

/* Bytes to samples: two samples, so four bytes, for each byte, at rate 8000 one sample, and the new mark likewise.
 * Answers 0, 4, 5, 6, 7 or 8. */
uint32_t rozimaha_g722_decode(const uint8_t *mark, size_t mark_len, const uint8_t *input, size_t input_len,
                              uint8_t *out, size_t out_len, uint8_t *new_mark, size_t new_mark_len);

#ifdef __cplusplus
}
#endif

#endif
