/* Hunavosk, the desk of a loom line, as a library: libhunavosk.a, for x86-64 Linux.
 *
 * One call does in memory what program desk does with its two files. It keeps nothing between calls, allocates
 * nothing and opens nothing, so calls with buffers of their own may run at the same time.
 */
#ifndef HUNAVOSK_H
#define HUNAVOSK_H

#include <stddef.h>
#include <stdint.h>

#ifdef __cplusplus
extern "C" {
#endif

/* How long a text buffer must be for a log of log_length bytes: room for every text that such a call can write. */
#define HUNAVOSK_TEXT_ROOM(log_length) ((size_t)200 + (size_t)20 * (size_t)(log_length))

/* Reads the table, then the schedule, starts the line fresh, makes the schedule's deliveries until one is refused,
 * and writes what desk prints into text, with no 0 at its end.
 *
 * Gives back how many bytes of text are written, at least 1; the bytes of text behind them are left as they were.
 * Gives back 0 exactly where text_length is less than HUNAVOSK_TEXT_ROOM(log_length); then nothing else is done,
 * and neither log nor text is changed.
 *
 * A table or a schedule that is refused gets its number and place in the text, "answer N at P", and the log is left
 * as it was. Otherwise log has the entries of the run from its start on, two bytes each, gate and vector; how many
 * they are stands in the text's first line, and the bytes behind them are left as they were. What stands in log
 * and text before the call doesn't matter. A log of any length will do, 0 too; desk's own has 20,000 bytes.
 *
 * The caller sees to this:
 * - each pointer leads to as many bytes as its length says, and is not null, even where the length is 0;
 * - log and text overlap neither each other nor table or schedule;
 * - nobody else writes any of the four, or reads log or text, while the call runs.
 */
size_t hunavosk_desk(const uint8_t *table, size_t table_length,
                     const uint8_t *schedule, size_t schedule_length,
                     uint8_t *log, size_t log_length,
                     uint8_t *text, size_t text_length);

#ifdef __cplusplus
}
#endif

#endif
