/* Purkvaldi: the check, the writer and the stepper, for a loader in C. Link
 * crates/c_interface/out/libc_interface.a, which `scripts/archive` proves and builds.
 *
 * Every function takes any bytes and any words and has a defined answer. The one thing asked is C's
 * own rule for each pointer, which comes with its length:
 *
 *   text     `length` bytes are read                    choices  `choices_length` bytes are read
 *   state    `words` words are read and written         answers  `answers_length` words are written
 *   out      `out_length` bytes are written
 *
 * No two buffers overlap. A pointer whose length is 0 is not looked at and may be null. No pointer
 * is kept after the call.
 *
 * Stack, measured and not proved: at most 13,848 bytes below a call (purkvaldi_run on a file 24
 * deep); 16 KB are enough. */
#ifndef PURKVALDI_H
#define PURKVALDI_H

#include <stddef.h>
#include <stdint.h>

#ifdef __cplusplus
extern "C" {
#endif

/* The words of a state, and the bytes of the longest listing, for buffers of fixed size;
 * purkvaldi_state_length() and purkvaldi_listing_length() give the same numbers. */
#define PURKVALDI_STATE_WORDS 4834
#define PURKVALDI_LISTING_BYTES 311309

/* A code: the refusal's number (documents 01 and 02) above 16 bits, 0 where nothing is refused; in
 * them the frame that a refusal of the text (1 to 13, 21) names, or, of a step, the acting thread
 * (0: none). */
#define PURKVALDI_NUMBER(code) ((code) >> 16)
#define PURKVALDI_DETAIL(code) ((code) & 0xFFFFu)

/* What a step gives: its code, and how many cells it read, stored in and made, in all at most 4
 * hexadecimal digits; 0 of a choice that is refused, whatever it read before. Generating or
 * awaiting an event counts nothing. */
#define PURKVALDI_STEP_CODE(answer) ((uint32_t)((answer) & 0xFFFFFFFFu))
#define PURKVALDI_ACCESSES(answer) ((uint32_t)((answer) >> 32))

/* The check of a text: 0 where it is accepted, else the code of its refusal, 1 to 13. */
uint32_t purkvaldi_check(const uint8_t *text, size_t length);

/* The lines of a text whose frames after the header stand in any order, laid out into `out` as the
 * check wants them, the children renumbered: 0 where they are written, and `out` is as long as the
 * text. Else the code of a refusal 1 to 5, 21 (a child number without a frame, a frame used twice
 * or a circle of children), 6 (whatever the order) or 7, its frame by its number in `text`; else
 * that of 14 (out_length is not length). A refusal writes nothing. 8 to 13 are not looked at. */
uint32_t purkvaldi_arrange(const uint8_t *text, size_t length, uint8_t *out, size_t out_length);

/* How many words a state is: PURKVALDI_STATE_WORDS. */
size_t purkvaldi_state_length(void);

/* Makes `state` the fresh state of a text that passes refusals 1 to 7, accepted or not: 0, or the
 * code of a refusal 1 to 7, or of 14 (words is not the length of a state). A refusal writes
 * nothing. */
uint32_t purkvaldi_fresh(const uint8_t *text, size_t length, uint64_t *state, size_t words);

/* One choice: 2 to 9 a scheduler, 16 + t the unlinked thread t. In the low 32 bits its code: number
 * 0 where it is done; else the text's refusal 1 to 7, 14 (the words are no state of this file), 15
 * no such party, 16 nothing to do (or not yet: a scheduler in step has an active thread), 17 or 18
 * spent, 19 foreign, 20 stuck. A refusal leaves every word as it was. Of a text that the check
 * accepts, 19 and 20 never come from a state that began fresh. Above the code, its accesses
 * (PURKVALDI_ACCESSES). */
uint64_t purkvaldi_step(const uint8_t *text, size_t length, uint64_t *state, size_t words,
                        uint64_t choice);

/* Many choices, a byte each, in one call: the text is read and the state validated once. 0 where
 * all are stepped, one after the other: then answers[i] is what purkvaldi_step would have given for
 * choices[i], code and accesses, and a choice that is refused leaves the state as it was, and the
 * next one follows. Else the code of the text's refusal 1 to 7, or of 14 (the words are no state of
 * this file, or there are not as many answers as choices), and nothing is written. */
uint32_t purkvaldi_steps(const uint8_t *text, size_t length, uint64_t *state, size_t words,
                         const uint8_t *choices, size_t choices_length, uint64_t *answers,
                         size_t answers_length);

/* How many bytes a listing's buffer has: PURKVALDI_LISTING_BYTES. */
size_t purkvaldi_listing_length(void);

/* What `purkvaldi_run` gives: a code, and how many bytes of `out` were written, which hold the
 * listing. */
#define PURKVALDI_CODE(result) ((uint32_t)((result) >> 32))
#define PURKVALDI_SIZE(result) ((size_t)((result) & 0xFFFFFFFFu))

/* The listing of a run in the first bytes of `out`. `choices` are the bytes of a choices.txt. The
 * code is that of the text's refusal 1 to 7, whatever the buffers' lengths; else that of 14 where
 * `state` or `out` has another length than the listing needs; else 0. Where a needed length is
 * wrong, nothing is written and the size is 0. The listing begins with the check's line; after a
 * refusal 1 to 7 it has no other, and needs only `out`: `state` may have any length. Where its last
 * line counts the choices used, `state` is the fresh state stepped through these, be there none;
 * else it is as it was. */
uint64_t purkvaldi_run(const uint8_t *text, size_t length, const uint8_t *choices,
                       size_t choices_length, uint64_t *state, size_t words, uint8_t *out,
                       size_t out_length);

#ifdef __cplusplus
}
#endif

#endif
