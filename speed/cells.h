/* What is measured: a cell is an oscillator, a pitch and a block length. Here are the cells, the settings of their blocks, and the call of an
 * implementation with them. */
#ifndef CELLS_H
#define CELLS_H

#include <math.h>
#include <string.h>

#include "implementations.h"

#define UNIT 4096  /* samples that are rendered in one turn, in blocks of the cell's length */
#define TABLE 1024 /* settings: each block takes the next ones */

/* The numbers of the kinds are those of a job record. */
enum kind { VARIABLE_SHAPE = 1, VARIABLE_SAW, SUPER_SQUARE, NES_TRIANGLE, STRING_SYNTH, CLASSIC };

/* Its flags are a job record's: 1 for the variable shape with sync, and the classic's shape. */
struct oscillator {
    const char *name;
    enum kind kind;
    uint8_t flags;
};
static const struct oscillator oscillators[] = {
    {"super_square", SUPER_SQUARE, 0},
    {"variable_shape", VARIABLE_SHAPE, 0},
    {"variable_shape_sync", VARIABLE_SHAPE, 1},
    {"variable_saw", VARIABLE_SAW, 0},
    {"nes_triangle", NES_TRIANGLE, 0},
    {"string_synth", STRING_SYNTH, 0},
    {"classic_impulse_train", CLASSIC, NAVULOQU_IMPULSE_TRAIN},
    {"classic_saw", CLASSIC, NAVULOQU_SAW},
    {"classic_triangle", CLASSIC, NAVULOQU_TRIANGLE},
    {"classic_slope", CLASSIC, NAVULOQU_SLOPE},
    {"classic_square", CLASSIC, NAVULOQU_SQUARE},
    {"classic_square_bright", CLASSIC, NAVULOQU_SQUARE_BRIGHT},
    {"classic_square_dark", CLASSIC, NAVULOQU_SQUARE_DARK},
    {"classic_square_triangle", CLASSIC, NAVULOQU_SQUARE_TRIANGLE},
};

/* Frequencies lie within half an octave of these on either side. */
struct pitch {
    const char *name;
    float frequency, master_frequency;
};
static const struct pitch pitches[] = {{"low", 0.001f, 0.0006f}, {"middle", 0.02f, 0.012f}, {"high", 0.2f, 0.13f}};

static const size_t blocks[] = {4096, 64, 32};

/* NULL where there is none of that name. */
static inline const struct oscillator *oscillator_named(const char *name)
{
    for (size_t i = 0; i < COUNT_OF(oscillators); i++)
        if (!strcmp(name, oscillators[i].name))
            return &oscillators[i];
    return NULL;
}

static inline const struct pitch *pitch_named(const char *name)
{
    for (size_t i = 0; i < COUNT_OF(pitches); i++)
        if (!strcmp(name, pitches[i].name))
            return &pitches[i];
    return NULL;
}

struct cell {
    const struct oscillator *oscillator;
    const struct pitch *pitch;
    size_t block;
};

struct settings {
    float frequency, master_frequency, pw, waveshape, phase_modulation, gain, registration[7];
};
#define NUM_BITS 4
#define SAMPLE_RATE 48000.0f

/* From 0 to below 1, the same numbers in every run. */
static inline float random_part(uint64_t *seed)
{
    *seed = *seed * 6364136223846793005u + 1442695040888963407u;
    return (float)(*seed >> 40) / (float)(1u << 24);
}

/* Everything moves from block to block. The highest frequency stays below the one at which the source clips it. */
static inline void fill_settings(struct settings table[TABLE], const struct pitch *pitch)
{
    uint64_t seed = 12345;
    for (size_t i = 0; i < TABLE; i++) {
        struct settings *s = &table[i];
        s->frequency = fminf(pitch->frequency * powf(2, random_part(&seed) - 0.5f), 0.24f);
        s->master_frequency = pitch->master_frequency * powf(2, random_part(&seed) - 0.5f);
        for (size_t k = 0; k < 7; k++)
            s->registration[k] = random_part(&seed);
        s->pw = 0.05f + 0.9f * random_part(&seed);
        s->waveshape = random_part(&seed);
        s->phase_modulation = 8 * random_part(&seed) - 4;
        s->gain = random_part(&seed);
    }
}

/* As many words as the largest state needs: the Rust's is its struct, the face's are words. */
struct state {
    _Alignas(64) uint32_t words[32];
};

static inline struct state started(const struct implementation *by, const struct oscillator *o)
{
    struct state state = {{0}};
    switch (o->kind) {
    case VARIABLE_SHAPE: by->variable_shape.init(state.words); break;
    case VARIABLE_SAW: by->variable_saw.init(state.words); break;
    case SUPER_SQUARE: by->super_square.init(state.words); break;
    case NES_TRIANGLE: by->nes_triangle.init(state.words); break;
    case STRING_SYNTH: by->string_synth.init(state.words); break;
    case CLASSIC:
        if (by->classic.init(state.words, SAMPLE_RATE) != NAVULOQU_DONE)
            memset(&state, 0xff, sizeof state); /* no state: the first block is refused */
        break;
    }
    return state;
}

/* Its answer. */
static inline uint32_t render(const struct implementation *by, const struct oscillator *o, uint32_t *state, const struct settings *s, float *out, size_t count)
{
    uint32_t result[NAVULOQU_RESULT_WORDS];
    switch (o->kind) {
    case VARIABLE_SHAPE:
        return by->variable_shape.render(state, s->master_frequency, s->frequency, s->pw, s->waveshape, s->phase_modulation, o->flags == 1, false, out, count, result);
    case VARIABLE_SAW: return by->variable_saw.render(state, s->frequency, s->pw, s->waveshape, out, count, result);
    case SUPER_SQUARE: return by->super_square.render(state, s->frequency, s->waveshape, out, count, result);
    case NES_TRIANGLE: return by->nes_triangle.render(state, s->frequency, NUM_BITS, out, count, result);
    case STRING_SYNTH: return by->string_synth.render(state, s->frequency, s->registration, 7, s->gain, out, count, result);
    case CLASSIC: return by->classic.render(state, s->frequency, s->pw, o->flags, out, count, result);
    }
    return NAVULOQU_BAD_PARAM; /* there is no such kind */
}

/* A unit: each block's part of the buffer is cleared, then rendered. The answers, or'ed. */
static inline uint32_t render_unit(const struct implementation *by, const struct cell *cell, struct state *state, const struct settings table[TABLE], size_t unit, float out[UNIT])
{
    uint32_t answers = 0;
    size_t calls = UNIT / cell->block;
    for (size_t i = 0; i < calls; i++) {
        float *part = out + i * cell->block;
        memset(part, 0, cell->block * sizeof *part);
        answers |= render(by, cell->oscillator, state->words, &table[(unit * calls + i) % TABLE], part, cell->block);
    }
    return answers;
}

#endif
