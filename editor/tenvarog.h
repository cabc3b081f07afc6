/* Judges packet networks on chip for deadlock: the bytes of a network file in, one number out.
 *
 * docs/EDITOR.md says what the call gives for every input, docs/FORMAT.md what a network file is, and docs/REFUSALS.md the numbers of
 * refusals. The library is proved (crates/editor); this header and what calls it are not. */

#ifndef TENVAROG_H
#define TENVAROG_H

#include <stddef.h>
#include <stdint.h>

#ifdef __cplusplus
extern "C" {
#endif

/* The answers that are verdicts. Any other is the number of a refusal: 10 to 20. */
#define TENVAROG_FREE UINT32_C(0)
#define TENVAROG_BLOCKED UINT32_C(1)

/* In `numbers`: the channel is held. In `places`: the channel has no packet in the blocked load. */
#define TENVAROG_NONE UINT32_C(4294967295)

/* No network is larger, and no file has more records. */
#define TENVAROG_MOST_CHANNELS 1024
#define TENVAROG_MOST_PLACES 256
#define TENVAROG_MOST_RECORDS 65535

/* Judges the network file of these bytes. For a network of C channels and P places
 *
 *   allowed  has a byte for each pair, C x P: byte c x P + d becomes 1 if packets for place d can come to be in channel c, and else 0
 *   numbers  has a word for each channel: its number, or TENVAROG_NONE if it is held
 *   places   has a word for each channel: the place of its packet in the blocked load, or TENVAROG_NONE
 *   work     has a word for each pair. It is all 0 afterwards, to its last word, whatever the answer
 *   fault    has two words: the line and the field of a refusal
 *
 * Lengths count bytes and words. A buffer may be longer than is needed; what lies beyond is left as it is. With a verdict `fault` is left, and with a
 * refusal `allowed`, `numbers` and `places` are. If `fault` is shorter than two words, as much is told as there is room for.
 *
 * No pointer may be null, not even with a length of 0, one to words has to be aligned for them, and no buffer may overlap another or the file.
 * The call keeps no pointer, allocates with malloc and frees before it returns, and may run in several threads at once. */
uint32_t tenvarog_check(
    const uint8_t *file, size_t file_length,
    uint8_t *allowed, size_t allowed_length,
    uint32_t *numbers, size_t numbers_length,
    uint32_t *places, size_t places_length,
    uint32_t *work, size_t work_length,
    uint32_t *fault, size_t fault_length);

#ifdef __cplusplus
}
#endif

#endif
