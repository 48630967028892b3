/* The pairing board for a program in C.
 *
 * Link with crates/embed/out/libembed.a and with the kit's c/liblibc_c.a; scripts/embed does it.
 * No function keeps anything between two calls, and none writes outside the bytes that it is given.
 * The proofs end at this border: a pointer has to be good for as many bytes as its length says.
 */
#ifndef CUPBOARDDOVE_H
#define CUPBOARDDOVE_H

#include <stddef.h>
#include <stdint.h>

#ifdef __cplusplus
extern "C" {
#endif

/* Feeds an update text to a new board (256 meters, a patient keeper with room for 4,096 proposals) and writes the report
 * that the program `pairs` prints for it into `out`, from its start: the heading, a line for each kept pair, and where the
 * text was stopped at. Answers how many bytes the report has. If `out` is shorter than that, it is left as it is: call
 * again with enough room. Answers 0, and leaves `out`, only where memory is wanting. The report has no closing zero byte. */
size_t cupboarddove_report(const uint8_t *text, size_t text_len, uint8_t *out, size_t out_len);

/* The level of a saving: the l with 2^l <= saving < 2^(l + 1). A number that is no saving gets the nearest level, 0 or 19. */
uint32_t cupboarddove_level(uint32_t saving);

#ifdef __cplusplus
}
#endif

#endif
