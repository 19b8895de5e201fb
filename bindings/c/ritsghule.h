/* The depth-ordered scan: opening, step and delivery on a state that the caller lends.
 *
 * A call answers 0, or the number of a refusal: docs/REFUSALS.md says what each number means and what it leaves in the state.
 * Pointers are not null, bytes handed to one call do not overlap, and nobody else writes them during the call.
 * Build the library with `tools/build library`: target/staticlib/libritsghule.a.
 */
#ifndef RITSGHULE_H
#define RITSGHULE_H

#include <stddef.h>
#include <stdint.h>

#ifdef __cplusplus
extern "C" {
#endif

/* A turn as numbers:
 *   0      the kind, one of the four below
 *   1      read: its number        output: its split, counted from 0
 *   2      read: its segment       output: its rows
 *   3      output: its columns, 1 to 4 (a state that no call left may have an output without any)
 *   4 ..   output: for each column a segment and its first row
 * What a kind does not use is 0. */
#define RITSGHULE_TURN_LEN 12

#define RITSGHULE_READ 1
#define RITSGHULE_OUTPUT 2
#define RITSGHULE_WAITING 3
#define RITSGHULE_DONE 4

/* How many bytes a state takes. */
size_t ritsghule_state_len(void);

/* Opens the job on the state. Job bytes are only read. Kept runs of a split that meet are taken as one; a concat or pack of one child is
 * read and counts to the 24 nodes, but makes no pipeline.
 * Where the answer is 17, 18 or 19, the index of the run at fault is written to run: its place in its split as written, counted from 0,
 * 0 to 15. On every other answer run is left as it was. */
uint8_t ritsghule_open(const uint8_t *job, size_t job_len, uint8_t *state, size_t state_len, uint32_t *run);

/* One step: the turn is written where the answer is 0, and left as it was where it is not. */
uint8_t ritsghule_step(uint8_t *state, size_t state_len, uint32_t *turn, size_t turn_len);

/* The segment of a read has come, with so many rows. An accepted delivery goes on with a step, and the turn is written as for a step;
 * a refused one takes no step. */
uint8_t ritsghule_deliver(uint8_t *state, size_t state_len, uint32_t read, uint32_t rows, uint32_t *turn, size_t turn_len);

#ifdef __cplusplus
}
#endif

#endif
