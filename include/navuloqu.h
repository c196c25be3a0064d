/* Navuloqu's tone generators for C and for whoever calls C. Link libnavuloqu.a (Linux, x86-64), which `tools/archive` writes.
 *
 * LOOK AT THE ANSWER of every call. A block that is refused leaves in the buffer what it held before: a buffer that is used again then holds
 * the last block, and who takes that for a rendered one delivers it twice.
 *
 * Each oscillator has `init` and `render`, and the variable shape can have its master's phase set. They keep nothing between calls: the
 * state is the caller's, an array of 32-bit words in the order of the fields given below, floats as their bit patterns, bools as 0 or 1,
 * whole numbers in two's complement. `init` writes the words of the oscillator's initial state, which lies in its range; the classic's takes
 * a sample rate and answers too. navuloqu_wave_write, last below, makes a WAV file's bytes of samples.
 *
 * A block is a glide. Each parameter moves over the block in equal steps, up to rounding, from the value that the state holds, which is where
 * the last block ended, to the one that the call asks for (phase_modulation only with `phase_output`; the classic's pw not for
 * NAVULOQU_TRIANGLE and NAVULOQU_SQUARE_TRIANGLE, whose width is 0.5): a note that is to start at its pitch starts from a state that holds
 * this pitch. A step is the parameter's value for one sample. Its room is the range in which it is answered: a frequency above 0 and at most
 * 17/64 (string synth 17/32), a pulse width strictly between 0 and 1, the others as in the state.
 *
 * An answered call may play another pitch or width than it was asked for, as the oscillators of the source do; nothing else is changed:
 *   - A frequency above 0.25 is played as 0.25: master and slave of variable shape and super square, variable saw, NES triangle, classic.
 *   - The super square's slave runs at the frequency times a factor that `shape` sets, and that product too is clipped at 0.25.
 *   - With f the frequency after its clip, a pulse width is clamped to 2 f .. 1 - 2 f; from f = 0.25 up it is 0.5.
 *   - The string synth is played an octave lower, with the registration two places higher, once above 1/16, twice above 1/8, three times
 *     above 1/4. The sound keeps its pitch, and the entries that have no place left drop out: square 2' and saw 1' above 1/16; square 4'
 *     and saw 2' too above 1/8; square 8' and saw 4' too above 1/4, so that saw 8' alone is left. Above 1/2 the call is refused. The
 *     state's frequency is eight times that of the call, halved for each octave.
 *
 * What is counted:
 *                    cycles: wraps of                           rises and falls                                        cuts, late
 *   variable shape   the master's phase with `sync`,            the slave's pulse turns high and low                   with `sync`
 *                    the slave's without
 *   variable saw     its phase                                  the pulse turns high at the width, low at the wrap     none
 *   super square     the master's phase                         the slave's pulse turns high and low                   yes
 *   NES triangle     its phase                                  rises: samples that reach another step; no falls       none
 *   string synth     its phase, 8 units: one of the lowest saw  rises: samples in another eighth of it; no falls       none
 *   classic          its phase                                  `high` turns 1 and 0, which of the squares is 1 past   none
 *                                                               the width, of triangle and slope before it, and which
 *                                                               impulse train and saw leave as it is
 * A cut is a reset by the master that finds the slave's pulse high. A string an octave lower counts half as many cycles.
 *
 * Late is an edge of the slave's pulse that comes after the reset in its own sample. A reset falls between two samples, and in its sample the
 * slave may still go its whole step: then the pulse turns, high or low, at a moment when the master has already set it back. The edge is in
 * the sound, as in the source's. It is counted as late, and is none of the rises and falls: these are the edges that are not late. One at the
 * very moment of the reset is not late. A cut stays a cut where only a late rise has made the pulse high.
 * Add the late ones back for the balance: `high` after a block less `high` before is all rises less all falls less the cuts. `result` gives
 * late rises and late falls together, so that the balance can be read from it only where none is late.
 *
 * The state's ranges: phases from 0 to below 1 (the variable saw's to 81/64 where `high` is 1, the string synth's to below 8); frequencies
 * 0 to 17/64 (string synth 17/32); pw and previous_pw 0 to 1; waveshape -1 to 2; phase_modulation and gains -16 to 16; the NES triangle's
 * step 0 to 2^num_bits - 1, the string synth's segment 0 to 7; next_sample may hold any bits, and so may the classic's lp_state, hp_state,
 * impulse_train_lp_coeff and impulse_train_gain. What an answered call leaves lies in them, though a step may be too large for the next call's
 * num_bits.
 *
 * `render` makes `count` samples in `out`, returns the answer, and writes it and what was counted to `result`. Whatever the answer but 0,
 * the state's words and all samples are as they were, and the counts are 0; with answer 0 for an empty block too. A NaN in the state after
 * an answered block that is not empty, which only the words that may hold any bits can be, is the word 0x7fc00000.
 *
 * Of the caller is asked:
 *   - Pointers are valid for what is said of them here, whatever the answer, and do not overlap; none is null, also where a count is 0. A
 *     bool is 0 or 1.
 *   - The floating-point environment is the one that a program starts with: rounding to nearest, ties to even; no flush to zero, no
 *     denormals as zero; exceptions masked. Hosts of plug-ins often set flush to zero and denormals as zero, and then samples and states
 *     differ; a trap ends the program. navuloqu_guard_begin and navuloqu_guard_end, below, see to it. Calls may raise exception flags.
 * Nothing else: every bit pattern of every float, whole number and state word is answered.
 *
 * A shared library that is linked with the archive should keep its names to itself, or two plug-ins in one host may call each other's:
 * link with -Wl,--exclude-libs,libnavuloqu.a. */
#ifndef NAVULOQU_H
#define NAVULOQU_H

#include <stdbool.h>
#include <stddef.h>
#include <stdint.h>

#ifdef __cplusplus
extern "C" {
#endif

/* What this header declares. Word counts, arguments and results may change with it, so that the archive's names carry it: a program that was
 * compiled with the header of another version does not link. From 2 to 3: `result` has one word more, NAVULOQU_RESULT_LATE, and rises and
 * falls no longer have the late ones in them. */
#define NAVULOQU_VERSION 3
#define navuloqu_variable_shape_init navuloqu_3_variable_shape_init
#define navuloqu_variable_shape_render navuloqu_3_variable_shape_render
#define navuloqu_variable_shape_set_master_phase navuloqu_3_variable_shape_set_master_phase
#define navuloqu_variable_saw_init navuloqu_3_variable_saw_init
#define navuloqu_variable_saw_render navuloqu_3_variable_saw_render
#define navuloqu_super_square_init navuloqu_3_super_square_init
#define navuloqu_super_square_render navuloqu_3_super_square_render
#define navuloqu_nes_triangle_init navuloqu_3_nes_triangle_init
#define navuloqu_nes_triangle_render navuloqu_3_nes_triangle_render
#define navuloqu_string_synth_init navuloqu_3_string_synth_init
#define navuloqu_string_synth_render navuloqu_3_string_synth_render
#define navuloqu_classic_init navuloqu_3_classic_init
#define navuloqu_classic_render navuloqu_3_classic_render
#define navuloqu_wave_write navuloqu_3_wave_write

/* Whoever does not look at what is returned is warned by the compiler. */
#if (defined(__cplusplus) && __cplusplus >= 201703L) || (defined(__STDC_VERSION__) && __STDC_VERSION__ > 201710L)
#define NAVULOQU_MUST_USE [[nodiscard]]
#elif defined(__GNUC__)
#define NAVULOQU_MUST_USE __attribute__((warn_unused_result))
#else
#define NAVULOQU_MUST_USE
#endif

/* The answers. */
#define NAVULOQU_DONE 0             /* rendered or written; also an empty block that passes, which changes nothing */
#define NAVULOQU_LONG_BLOCK 1       /* more than NAVULOQU_LONGEST_BLOCK samples */
#define NAVULOQU_BAD_REGISTRATION 2 /* string synth only: the registration is not NAVULOQU_REGISTRATION_ENTRIES long */
#define NAVULOQU_BAD_STATE 3        /* the state lies outside its range, or a bool's word is neither 0 nor 1 */
#define NAVULOQU_BAD_PARAM 4        /* a parameter lies outside its range; of a stem the rate, the count or a sample that is a NaN */
#define NAVULOQU_TOO_HIGH 5         /* string synth only: the frequency is above 0.5 */
#define NAVULOQU_DRIFT 6            /* an interpolated step leaves its room */
#define NAVULOQU_NO_ROOM 9          /* navuloqu_wave_write only: fewer bytes are lent than the stem has */

/* The answer's name, for a message. */
static inline const char *navuloqu_answer_name(uint32_t answer)
{
    switch (answer) {
    case NAVULOQU_DONE: return "Done";
    case NAVULOQU_LONG_BLOCK: return "LongBlock";
    case NAVULOQU_BAD_REGISTRATION: return "BadRegistration";
    case NAVULOQU_BAD_STATE: return "BadState";
    case NAVULOQU_BAD_PARAM: return "BadParam";
    case NAVULOQU_TOO_HIGH: return "TooHigh";
    case NAVULOQU_DRIFT: return "Drift";
    case NAVULOQU_NO_ROOM: return "NoRoom";
    default: return "no answer of this version";
    }
}

#define NAVULOQU_LONGEST_BLOCK 4096      /* samples that a call answers at most */
#define NAVULOQU_REGISTRATION_ENTRIES 7  /* of the string synth */

/* The places in `result`, and how many there are. */
#define NAVULOQU_RESULT_ANSWER 0      /* as it is returned */
#define NAVULOQU_RESULT_DRIFT_INDEX 1 /* with NAVULOQU_DRIFT the index of the first sample with a step outside its room, else 0 */
#define NAVULOQU_RESULT_CYCLES 2
#define NAVULOQU_RESULT_RISES 3 /* those that are not late; likewise the falls */
#define NAVULOQU_RESULT_FALLS 4
#define NAVULOQU_RESULT_CUTS 5
#define NAVULOQU_RESULT_LATE 6 /* late rises and late falls together */
#define NAVULOQU_RESULT_WORDS 7

/* The floating-point environment. Between the two calls floats are computed as the oscillators need it, in this thread; the second puts back
 * what was there before, exception flags too. `render`, `set_master_phase` and the classic's `init` need it; the other `init` do not, and
 * navuloqu_wave_write only where exceptions are not masked. Once around all calls of a block is enough.
 *
 *     const uint32_t control = navuloqu_guard_begin();
 *     const uint32_t answer = navuloqu_super_square_render(state, frequency, shape, out, count, result);
 *     navuloqu_guard_end(control); */
#if defined(__x86_64__)
/* Sets MXCSR to what a program starts with: nearest-even, nothing flushed, exceptions masked. Returns what it was. */
NAVULOQU_MUST_USE static inline uint32_t navuloqu_guard_begin(void)
{
    const uint32_t needed = 0x1f80;
    uint32_t control;
    __asm__ __volatile__("stmxcsr %0" : "=m"(control) : : "memory");
    __asm__ __volatile__("ldmxcsr %0" : : "m"(needed) : "memory");
    return control;
}

/* Puts back what navuloqu_guard_begin returned. */
static inline void navuloqu_guard_end(uint32_t control)
{
    __asm__ __volatile__("ldmxcsr %0" : : "m"(control) : "memory");
}
#endif

/* Variable shape. State words: master_phase, slave_phase, next_sample, previous_pw, high (bool), master_frequency, slave_frequency, pw,
 * waveshape, phase_modulation. */
#define NAVULOQU_VARIABLE_SHAPE_WORDS 10

void navuloqu_variable_shape_init(uint32_t state[NAVULOQU_VARIABLE_SHAPE_WORDS]);

/* A refused block leaves what `out` held: used again, the buffer repeats the last block. */
NAVULOQU_MUST_USE uint32_t navuloqu_variable_shape_render(
    uint32_t state[NAVULOQU_VARIABLE_SHAPE_WORDS], /* read; after answer 0 the state that the block left */
    float master_frequency,                        /* in cycles per sample: 0.000001 to 1, also without `sync`; above 0.25 as 0.25 */
    float frequency,                               /* the slave's, in cycles per sample: 0.000001 to 1; above 0.25 as 0.25 */
    float pw,                                      /* the slave's pulse width: 0 to 1, clamped by the slave's frequency */
    float waveshape,                               /* 0 to 1: from triangle over saw to square */
    float phase_modulation,                        /* -8 to 8, also without `phase_output` */
    bool sync,                                     /* whether the master resets the slave */
    bool phase_output,                             /* whether the phase is put out, and not the waveform */
    float *out,                                    /* `count` samples, overwritten */
    size_t count,                                  /* at most NAVULOQU_LONGEST_BLOCK */
    uint32_t result[NAVULOQU_RESULT_WORDS]);

/* Sets the master's phase. Returns NAVULOQU_DONE, and state[0] is the phase bit by bit; or NAVULOQU_BAD_PARAM where the phase is not
 * from 0 to below 1, and no word has changed. The other words are neither tested nor touched. */
NAVULOQU_MUST_USE uint32_t navuloqu_variable_shape_set_master_phase(
    uint32_t state[NAVULOQU_VARIABLE_SHAPE_WORDS],
    float phase); /* at least 0 and below 1 */

/* Variable saw. State words: phase, next_sample, previous_pw, high (bool), frequency, pw, waveshape. */
#define NAVULOQU_VARIABLE_SAW_WORDS 7

void navuloqu_variable_saw_init(uint32_t state[NAVULOQU_VARIABLE_SAW_WORDS]);

/* A refused block leaves what `out` held: used again, the buffer repeats the last block. */
NAVULOQU_MUST_USE uint32_t navuloqu_variable_saw_render(
    uint32_t state[NAVULOQU_VARIABLE_SAW_WORDS], /* read; after answer 0 the state that the block left */
    float frequency,                             /* in cycles per sample: 0.000001 to 1; above 0.25 as 0.25 */
    float pw,                                    /* the pulse width: 0 to 1, clamped by the frequency */
    float waveshape,                             /* 0 to 1: from the notched saw to the triangle */
    float *out,                                  /* `count` samples, overwritten */
    size_t count,                                /* at most NAVULOQU_LONGEST_BLOCK */
    uint32_t result[NAVULOQU_RESULT_WORDS]);

/* Super square. State words: master_phase, slave_phase, next_sample, high (bool), master_frequency, slave_frequency. */
#define NAVULOQU_SUPER_SQUARE_WORDS 6

void navuloqu_super_square_init(uint32_t state[NAVULOQU_SUPER_SQUARE_WORDS]);

/* A refused block leaves what `out` held: used again, the buffer repeats the last block. */
NAVULOQU_MUST_USE uint32_t navuloqu_super_square_render(
    uint32_t state[NAVULOQU_SUPER_SQUARE_WORDS], /* read; after answer 0 the state that the block left */
    float frequency,                             /* the master's, in cycles per sample: 0.000001 to 1; above 0.25 as 0.25 */
    float shape,                                 /* 0 to 1: the slave runs 0.51 to 5 times as fast, at most at 0.25 */
    float *out,                                  /* `count` samples, overwritten */
    size_t count,                                /* at most NAVULOQU_LONGEST_BLOCK */
    uint32_t result[NAVULOQU_RESULT_WORDS]);

/* NES triangle. State words: phase, next_sample, step (whole number), ascending (bool), frequency. */
#define NAVULOQU_NES_TRIANGLE_WORDS 5

void navuloqu_nes_triangle_init(uint32_t state[NAVULOQU_NES_TRIANGLE_WORDS]);

/* A refused block leaves what `out` held: used again, the buffer repeats the last block. */
NAVULOQU_MUST_USE uint32_t navuloqu_nes_triangle_render(
    uint32_t state[NAVULOQU_NES_TRIANGLE_WORDS], /* read; after answer 0 the state that the block left */
    float frequency,                             /* in cycles per sample: 0.000001 to 1; above 0.25 as 0.25 */
    uint32_t num_bits,                           /* 1 to 16: a cycle has 2^num_bits steps */
    float *out,                                  /* `count` samples, overwritten */
    size_t count,                                /* at most NAVULOQU_LONGEST_BLOCK */
    uint32_t result[NAVULOQU_RESULT_WORDS]);

/* String synth. State words: phase, next_sample, segment (whole number), frequency, saw_8_gain, saw_4_gain, saw_2_gain, saw_1_gain. */
#define NAVULOQU_STRING_SYNTH_WORDS 8

void navuloqu_string_synth_init(uint32_t state[NAVULOQU_STRING_SYNTH_WORDS]);

/* A refused block adds nothing to `out`: used again without being cleared, the buffer repeats the last block. */
NAVULOQU_MUST_USE uint32_t navuloqu_string_synth_render(
    uint32_t state[NAVULOQU_STRING_SYNTH_WORDS], /* read; after answer 0 the state that the block left */
    float frequency,                             /* in cycles per sample: 0.000001 to 0.5; above that, up to 1, NAVULOQU_TOO_HIGH */
    const float *registration,                   /* 0 to 1 each: saw 8', square 8', saw 4', square 4', saw 2', square 2', saw 1' */
    size_t registration_count,                   /* NAVULOQU_REGISTRATION_ENTRIES, else NAVULOQU_BAD_REGISTRATION */
    float gain,                                  /* 0 to 4 */
    float *out,                                  /* `count` samples, to which the block is added */
    size_t count,                                /* at most NAVULOQU_LONGEST_BLOCK */
    uint32_t result[NAVULOQU_RESULT_WORDS]);

/* Classic oscillator. State words: phase, next_sample, lp_state, hp_state, high (bool), frequency, pw, impulse_train_lp_coeff,
 * impulse_train_gain. */
#define NAVULOQU_CLASSIC_WORDS 9

/* Its shapes. */
#define NAVULOQU_IMPULSE_TRAIN 0
#define NAVULOQU_SAW 1
#define NAVULOQU_TRIANGLE 2
#define NAVULOQU_SLOPE 3
#define NAVULOQU_SQUARE 4
#define NAVULOQU_SQUARE_BRIGHT 5
#define NAVULOQU_SQUARE_DARK 6
#define NAVULOQU_SQUARE_TRIANGLE 7

/* The initial state at a sample rate, whatever the words were. Returns NAVULOQU_DONE; or NAVULOQU_BAD_PARAM where the rate is not from 8,000
 * to 384,000, and no word has changed: words that were no state before are none still. */
NAVULOQU_MUST_USE uint32_t navuloqu_classic_init(
    uint32_t state[NAVULOQU_CLASSIC_WORDS],
    float sample_rate); /* in samples per second: 8000 to 384000; only NAVULOQU_IMPULSE_TRAIN depends on it */

/* A refused block leaves what `out` held: used again, the buffer repeats the last block. */
NAVULOQU_MUST_USE uint32_t navuloqu_classic_render(
    uint32_t state[NAVULOQU_CLASSIC_WORDS], /* read; after answer 0 the state that the block left */
    float frequency,                        /* in cycles per sample: 0.000001 to 1; above 0.25 as 0.25 */
    float pw,                               /* the pulse width: 0 to 1 whatever the shape, clamped by the frequency */
    uint32_t shape,                         /* NAVULOQU_IMPULSE_TRAIN to NAVULOQU_SQUARE_TRIANGLE, else NAVULOQU_BAD_PARAM */
    float *out,                             /* `count` samples, overwritten */
    size_t count,                           /* at most NAVULOQU_LONGEST_BLOCK */
    uint32_t result[NAVULOQU_RESULT_WORDS]);

/* Stems: samples, of whatever oscillators, become the bytes of a WAV file, mono, 16-bit PCM. */
#define NAVULOQU_WAVE_HEADER 44            /* bytes before the first sample's */
#define NAVULOQU_WAVE_MOST_SAMPLES 1048576 /* samples of a stem at most */
#define NAVULOQU_WAVE_BYTES(count) (NAVULOQU_WAVE_HEADER + 2 * (size_t)(count)) /* the bytes of a stem of so many samples */

/* Writes a stem to the front of `bytes`: the header, then for each sample a signed 16-bit number, little-endian. The sample is clipped to -1
 * and 1, an infinity too, and its exact value times 32,767 goes to the nearest whole number, ties to the even one: -1 and 1 are -32,767 and
 * 32,767, and 0.5 and -0.5, which alone lie in the middle of two, are 16,384 and -16,384. Bytes past the stem stay.
 *
 * Returns NAVULOQU_DONE. Or NAVULOQU_BAD_PARAM where the rate lies outside its range, there are more than NAVULOQU_WAVE_MOST_SAMPLES samples,
 * or one of them is a NaN; else NAVULOQU_NO_ROOM exactly where `room` is less than NAVULOQU_WAVE_BYTES(count). Then no byte has changed:
 * whoever writes them to a file writes what they held before.
 *
 * Samples are read bit by bit and compared with themselves, and nothing is computed with floats: neither rounding nor flush to zero nor
 * denormals as zero matters. Only exceptions have to be masked, as they are when a program starts: a comparison of a subnormal sample or of a
 * signalling NaN raises one. */
NAVULOQU_MUST_USE uint32_t navuloqu_wave_write(
    uint32_t rate,        /* in samples per second: 1 to 384000 */
    const float *samples, /* `count` samples, of any bits */
    size_t count,         /* at most NAVULOQU_WAVE_MOST_SAMPLES; none at all make a stem too, of the header alone */
    uint8_t *bytes,       /* `room` bytes */
    size_t room);         /* at least NAVULOQU_WAVE_BYTES(count) */

#ifdef __cplusplus
}
#endif

#endif
