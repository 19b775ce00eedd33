/*
 * The initial margin of a portfolio, worked out of a whole text of frames.
 *
 * A text has the rows of a rate sheet and then the bookings, one frame a line.
 * docs/frames.md says how frames are written, docs/intake.md what is answered.
 */
#ifndef DOLZHIVAR_H
#define DOLZHIVAR_H

#include <stddef.h>
#include <stdint.h>

#ifdef __cplusplus
extern "C" {
#endif

/* The least memory for an answer, in bytes. No answer is longer. */
#define DOLZHIVAR_ANSWER_MEMORY 5500

/* The longest text, in bytes. */
#define DOLZHIVAR_TEXT_LIMIT 65536

/* What the call returns where it is refused. */
#define DOLZHIVAR_ANSWER_MEMORY_TOO_SHORT (-36)
#define DOLZHIVAR_TEXT_TOO_LONG (-37)

/*
 * Works out the margin of the portfolio in `text`, and writes the answer at the front of `answer`.
 *
 * Returns how many bytes are written, which is at most DOLZHIVAR_ANSWER_MEMORY. They are lines of hexadecimal, each with
 * its line feed, and no zero byte follows them:
 *   - a D frame for each class that is held, by rising number, and then one T frame;
 *   - or one F frame alone: why a line of the text is refused, with its number from 1, or why the deposit is refused, with
 *     line 0.
 * All bytes of `answer` behind those written are as they were.
 *
 * Returns -36 where `answer_length` is below DOLZHIVAR_ANSWER_MEMORY, and otherwise -37 where `text_length` is above
 * DOLZHIVAR_TEXT_LIMIT. All of `answer` is then as it was.
 *
 * `text` points to `text_length` bytes and `answer` to `answer_length` bytes; neither is NULL, also where its length is 0,
 * and they do not overlap. `text` is not written. No memory is allocated and nothing is kept from one call to the next,
 * so that several threads may call at once, each with an answer memory of its own.
 */
int64_t dolzhivar_margin(const uint8_t *text, size_t text_length, uint8_t *answer, size_t answer_length);

#ifdef __cplusplus
}
#endif

#endif
