/* What answers a record: the functions that program.c calls. They are linked into it, or stand in a shared library as in a plug-in. Each
 * puts a line with its end into `line` and returns NULL; or returns what is wrong with what a call did beside that. */
#ifndef ANSWERS_H
#define ANSWERS_H

#include <stdbool.h>
#include <stddef.h>
#include <stdint.h>

#ifdef __cplusplus
extern "C" {
#endif

#define MXCSR_START 0x1f80u /* what it holds when a program starts */

/* What MXCSR holds before a call, and whether the header's guard stands around it. */
struct control {
    uint32_t word;
    bool is_guarded;
};

#define CALL_BYTES 128
#define START_BYTES 44
#define WAVE_BYTES 64
#define OSCILLATORS 6
#define LINE_ROOM 256 /* the longest line has 176 bytes */

/* The line of a call record, as crates/calls prints it. */
const char *answer_call(const struct control *control, const unsigned char record[CALL_BYTES], char line[LINE_ROOM]);

/* The line that crates/starts prints of an exported `init`. The oscillators are counted from 0. */
const char *answer_start(const struct control *control, size_t oscillator, char line[LINE_ROOM]);

/* What crates/starts prints of the exported forms for a record: of `set_master_phase`, then of the classic's `init`. */
const char *answer_given(const struct control *control, const unsigned char record[START_BYTES], char line[LINE_ROOM]);

/* The line of a record of samples, as crates/waves prints it. */
const char *answer_wave(const struct control *control, const unsigned char record[WAVE_BYTES], char line[LINE_ROOM]);

#ifdef __cplusplus
}
#endif

#endif
