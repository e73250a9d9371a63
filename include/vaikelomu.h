/*
 * Vaikelomu: a text of at most 32 bytes, written into a picture so that it can't be seen and survives
 * recompression and scaling, and read back. For C90 with long long, C99 and C++, on x86-64 Linux. Link with
 * target/staticlib/libvaikelomu.a, which `tools/staticlib` writes, and the C library.
 *
 * Samples. A picture is width x height pixels of 3 or 4 bytes: red, green, blue, and a fourth that is left
 * alone. Rows run from the top, pixels from the left, with nothing between rows.
 *
 * Memory. All of it is the caller's: it is lent for the call, and nothing is kept, allocated or freed. A
 * slice passes as a pointer and then its length in elements. No pointer may be NULL; where a length is 0, the
 * pointer is not followed. `key` and `salt` always point to 32 and to 4 bytes; where no key is used, their
 * values are ignored. What a call writes to may not overlap anything else that is lent to it. All values of
 * arguments and of lent memory are allowed, floats that are not numbers included: what can't be used is
 * refused.
 *
 * Answers. Each function answers 0 (VAIKELOMU_DONE), or the number of the first refusal that applies. It
 * always sets *given: to the number that goes with the refusal, or to 0.
 *
 * Stack. Writing needs about 308 KiB of it, reading a picture 308 KiB and reading votes 21 KiB, whatever the
 * picture's size (measured: docs/BENCH.md). Give threads that much and some to spare.
 * No state is shared: calls may run at the same time where none writes to memory that another is lent.
 *
 * Floats. Results are those of C's default floating-point environment: rounding to nearest, subnormals kept,
 * no traps. Link nothing that changes it, as -ffast-math may.
 *
 * What stays with the host (docs/HOSTS.md has the details and figures):
 *   - Read back after writing. A saturated picture can leave a mark that can't be read.
 *   - Turn pictures upright before writing and before reading. A turned or cropped copy is not read.
 *   - Draw a new salt for each mark under a key, and derive the key from the password and that salt.
 *   - Keep one work area between calls. A fresh one costs the system's page faults at each call.
 *   - Expect any pixel to change, also one that stands for "no data".
 *
 * What is answered, and what is left in all lent memory, is proved for every input: see the promises in
 * crates/vaikelomu_c/src/lib.rt, and docs/TRUST.md for what that rests on. The proof has one NaN: that a refused
 * call leaves the bits of a NaN in the work area as they were is run, not proved.
 */
#ifndef VAIKELOMU_H
#define VAIKELOMU_H

#include <stddef.h>
#include <stdint.h>

#ifdef __cplusplus
extern "C" {
#endif

/* The version of this header, and of the archive as vaikelomu_version answers it. */
#define VAIKELOMU_VERSION_MAJOR 0
#define VAIKELOMU_VERSION_MINOR 1
#define VAIKELOMU_VERSION_PATCH 0

/* Sizes in bytes: the longest text, a key, a salt, and a record. */
#define VAIKELOMU_TEXT 32
#define VAIKELOMU_KEY 32
#define VAIKELOMU_SALT 4
#define VAIKELOMU_RECORD 46

/* How many votes a picture has: one for each of its blocks. */
#define VAIKELOMU_VOTES 1024

/* The sides: the least that the shorter one must have for writing, and the longest one. Reading takes 1 and up. */
#define VAIKELOMU_SHORTEST_TO_WRITE 512
#define VAIKELOMU_LONGEST 8192

/* How many floats the work area needs at least, for sides that are not too long. */
#define VAIKELOMU_WORK_TO_WRITE(width, height) ((size_t)131072 + 2 * (size_t)(width) * (size_t)(height))
#define VAIKELOMU_WORK_TO_READ(width, height) ((size_t)65536 + (size_t)(width) * (size_t)(height))

/*
 * The reasons to refuse a call, by number: when each is given, and what *given becomes.
 *
 * The order in which they are looked for: writing 1, 2, 3, 4, 5, 6, 7; reading from samples 8 for a side of
 * 0, then 4, 5, 6, 7, and from votes 6, 15; and then, in both readings, 8, 9, 10 or 11, and 12 or 13. No call
 * answers 14.
 */
enum vaikelomu_answer {
    VAIKELOMU_DONE = 0,                      /* all was done: 0 */
    VAIKELOMU_TEXT_TOO_LONG = 1,             /* a text over 32 bytes: its length */
    VAIKELOMU_TEXT_NOT_UTF8 = 2,             /* a text that can't be UTF-8, see vaikelomu_write: 0 */
    VAIKELOMU_IMAGE_TOO_SMALL = 3,           /* writing, the shorter side under 512: that side */
    VAIKELOMU_IMAGE_TOO_LARGE = 4,           /* a side over 8,192: the longer side */
    VAIKELOMU_BAD_CHANNELS = 5,              /* channels neither 3 nor 4: how many */
    VAIKELOMU_BAD_LENGTH = 6,                /* samples not width x height x channels, or votes not 1,024: how many */
    VAIKELOMU_WORK_TOO_SMALL = 7,            /* too few floats lent for work: how many are needed */
    VAIKELOMU_NO_WATERMARK = 8,              /* reading, a side of 0, or no mark found: 0 */
    VAIKELOMU_UNSUPPORTED_VERSION = 9,       /* a mark of another kind: its mode byte */
    VAIKELOMU_NOT_ENCRYPTED = 10,            /* a plain mark, and a key: 0 */
    VAIKELOMU_PASSWORD_REQUIRED = 11,        /* a mark under a key, and none: the mark's salt, first byte highest */
    VAIKELOMU_DAMAGED = 12,                  /* a plain mark with wrong contents: 0 */
    VAIKELOMU_WRONG_PASSWORD_OR_DAMAGED = 13,/* a mark under a key with wrong contents, or under another key: 0 */
    VAIKELOMU_KEYSTREAM_END = 14,            /* the keystream ends too early: 0 */
    VAIKELOMU_BAD_VOTE = 15                  /* a vote that is not a number from -1 to 1: the place of the first */
};

/*
 * The version of the archive: major << 16 | minor << 8 | patch. A host compares it with the three macros to see that the
 * header and the archive belong together.
 */
uint32_t vaikelomu_version(void);

/*
 * Writes a text into a picture's samples.
 *
 *   samples, samples_length  the picture, which becomes the marked one; a fourth channel stays as it is
 *   width, height, channels  its sides in pixels, 512 to 8,192, and 3 or 4
 *   text, text_length        UTF-8, at most 32 bytes, also none. Accepted are bytes 00-7F alone, C0-DF followed
 *                            by one byte of 80-BF, E0-EF by two, F0-F7 by three; anything else is refused with
 *                            2. Reading holds the text to RFC 3629 in full: what passes here and is no UTF-8,
 *                            as an encoded surrogate, is refused there with 12 or 13
 *   locked                   0: a plain mark. Any other number: a mark under the key
 *   key                      32 bytes, which the caller derives from a password and the salt
 *   salt                     4 bytes, drawn anew for each mark, which the mark carries in the clear: a reader
 *                            without a key gets them with refusal 11. A plain mark carries zeros
 *   work, work_length        at least VAIKELOMU_WORK_TO_WRITE(width, height) floats, of any values
 *   given                    the number given
 *
 * Refused (1 to 7), samples and work area are as they were lent. Done, the whole work area is +0.0.
 */
uint8_t vaikelomu_write(
    uint8_t *samples, size_t samples_length, size_t width, size_t height, size_t channels,
    const uint8_t *text, size_t text_length,
    uint8_t locked, const uint8_t key[VAIKELOMU_KEY], const uint8_t salt[VAIKELOMU_SALT],
    float *work, size_t work_length, uint64_t *given);

/*
 * Reads the text of a picture.
 *
 *   samples, samples_length  the picture, also one that was scaled or recompressed
 *   width, height, channels  its sides in pixels, 1 to 8,192, and 3 or 4
 *   keyed                    0: without a key. Any other number: with the key
 *   key                      32 bytes
 *   work, work_length        at least VAIKELOMU_WORK_TO_READ(width, height) floats, of any values
 *   text                     32 bytes: the text and zeros after it
 *   length                   the text's length
 *   given                    the number given
 *
 * Refused, the text is 32 zeros and its length 0. The work area is as it was lent after 4 to 7, and after 8
 * for a side of 0; otherwise, whether or not a text was read, the whole of it is +0.0.
 */
uint8_t vaikelomu_read(
    const uint8_t *samples, size_t samples_length, size_t width, size_t height, size_t channels,
    uint8_t keyed, const uint8_t key[VAIKELOMU_KEY],
    float *work, size_t work_length,
    uint8_t text[VAIKELOMU_TEXT], size_t *length, uint64_t *given);

/*
 * Reads a text from the votes of a picture's blocks: 1,024 floats from -1 to 1, above 0 for a bit of 0 and
 * below 0 for a bit of 1. The rest is as in vaikelomu_read; there is no work area.
 */
uint8_t vaikelomu_read_votes(
    const float *votes, size_t votes_length,
    uint8_t keyed, const uint8_t key[VAIKELOMU_KEY],
    uint8_t text[VAIKELOMU_TEXT], size_t *length, uint64_t *given);

/*
 * The record that the votes of a picture's blocks decode to, whatever it holds. Refused (6, 15), it is zeros.
 */
uint8_t vaikelomu_record(
    const float *votes, size_t votes_length, uint8_t record[VAIKELOMU_RECORD], uint64_t *given);

#ifdef __cplusplus
}
#endif

#endif
