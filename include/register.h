/*
 * The cluster register for programs in C and C++.
 *
 * Link crates/exports/out/libexports.a. `rt lib` in crates/exports writes it.
 * It is for Linux on x86-64, with the C library.
 *
 * A function does what its comment says if the caller keeps the duties there.
 * Nothing checks a duty. A call that breaks one may do anything.
 *
 * Of every call:
 *
 * - Each area must lie whole in memory that the caller may use.
 * - No two areas of one call may overlap, not even in part.
 * - A pointer may be NULL only where its comment says so.
 * - While a call runs, nothing else may write to its areas.
 * - While a call runs, nothing else may read an area that it writes.
 * - Calls may run at the same time, in threads and in signal handlers.
 * - The library has no writable data of its own, so no call sees another.
 * - A call always returns. It leaves errno alone, locks nothing, allocates nothing.
 * - It makes no system call. It calls memcpy and memset, and nothing else.
 * - The library has no unwind tables. No exception may pass through a call.
 * - A thread must not be cancelled asynchronously while it is in a call.
 * - The stack must have the bytes left that the function's comment names.
 * - A stack that runs out is met at its guard page, if it has one.
 */
#ifndef REGISTER_H
#define REGISTER_H

#include <stddef.h>
#include <stdint.h>

#if SIZE_MAX != UINT64_MAX
#error "The register is for machines whose size_t has 64 bits."
#endif

#ifdef __cplusplus
extern "C" {
#endif

/* The longest input that is acted on, in bytes. */
#define REGISTER_INPUT_MOST 65536

/* The bytes of the output of register_run. No input has a longer output. */
#define REGISTER_OUTPUT_SIZE 184320

/* The stack that a call of register_run may need, in bytes. */
#define REGISTER_RUN_STACK 32768

/*
 * Runs a script on a fresh register, and writes what the program `register`
 * prints for it.
 *
 * input: `length` readable bytes, each with a value.
 *   It may have any alignment. It may be NULL if `length` is 0.
 *   It may be longer than REGISTER_INPUT_MOST. Then nothing of it is acted on.
 *   The output then begins with the line refused=19.
 * output: REGISTER_OUTPUT_SIZE writable bytes, whatever the input is.
 *   It may have any alignment. It must not be NULL.
 *   Its bytes need no value before the call.
 *
 * Answers how many bytes were written, from the start of the output on.
 * That is at least 23 and at most REGISTER_OUTPUT_SIZE.
 * No byte is added after the text, not even a zero.
 *
 * Left untouched: the input, and the output's bytes from the answer on.
 *
 * Stack: REGISTER_RUN_STACK bytes.
 */
size_t register_run(const uint8_t *input, size_t length, uint8_t *output);

/* The most figures that a job has, and the bytes of the longest job text. */
#define REGISTER_JOB_FIGURES_MOST 196
#define REGISTER_JOB_TEXT_MOST 3189

/* The largest figure that can be written: ten digits. */
#define REGISTER_FIGURE_MOST UINT64_C(9999999999)

/* The stack that a call of register_write_job may need, in bytes. */
#define REGISTER_WRITE_JOB_STACK 9216

/* The answers of register_write_job. It gives no other. */
#define REGISTER_WRITTEN 0
#define REGISTER_NOT_A_JOB 20
#define REGISTER_TOO_SHORT 21

/*
 * Writes the text of a job, which is given as the figures of its lines.
 *
 * To submit the text in a script, put the line act=submit before it.
 *
 * The lines in order: job, sched, tasks, each task, messages, each message.
 * A task is deadline, dispatch and four run. A message is from, to and volume.
 *
 * figures: `count` readable figures, each with a value.
 *   It must have the alignment of uint64_t, 8. It may be NULL if `count` is 0.
 *   Any count and any figure may be passed.
 * output: `size` writable bytes.
 *   It may have any alignment. It may be NULL if `size` is 0.
 *   Its bytes need no value before the call.
 * length: one writable size_t, aligned to 8.
 *   It must not be NULL. It needs no value before the call.
 *
 * Answers one of three numbers:
 *
 * REGISTER_WRITTEN (0): the text stands from the start of the output on.
 *   Its length is in *length. No byte is added after it, not even a zero.
 * REGISTER_NOT_A_JOB (20): the figures are not those of a job.
 *   There are too few or too many of them for the counts that they give.
 *   Or tasks is not 1 to 16, or messages is above 32.
 *   Or a figure is above REGISTER_FIGURE_MOST.
 * REGISTER_TOO_SHORT (21): the text is longer than `size`.
 *   A size of REGISTER_JOB_TEXT_MOST is enough for every job.
 *
 * Number 20 is judged before 21. Both set *length to 0.
 *
 * Left untouched: the figures, and the output's bytes from *length on.
 * So a refusal leaves the whole output untouched.
 *
 * Stack: REGISTER_WRITE_JOB_STACK bytes.
 */
uint64_t register_write_job(const uint64_t *figures, size_t count,
                            uint8_t *output, size_t size, size_t *length);

#ifdef __cplusplus
}
#endif

#endif
