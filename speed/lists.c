/* lists OSCILLATOR|all PITCH: writes a job list of 1,024 records of 4,096 samples, of one oscillator or of all in turn, with the settings of the
 * bench's cells. */
#include <stdio.h>

#include "cells.h"
#include "written.h"

/* The 64 bytes of a job record, as x86-64 and Arm hold numbers. */
struct record {
    uint8_t kind, flags;
    uint16_t samples;
    uint32_t steps;
    float first, second, third, fourth, fifth, registration[7];
    uint8_t unused[8];
};

static struct record made(const struct oscillator *o, const struct settings *s)
{
    struct record r = {.kind = (uint8_t)o->kind, .flags = o->flags, .samples = UNIT, .first = s->frequency};
    switch (o->kind) {
    case VARIABLE_SHAPE:
        r.second = s->master_frequency;
        r.third = s->pw;
        r.fourth = s->waveshape;
        r.fifth = s->phase_modulation;
        break;
    case VARIABLE_SAW:
        r.third = s->pw;
        r.fourth = s->waveshape;
        break;
    case SUPER_SQUARE: r.third = s->waveshape; break;
    case CLASSIC: r.third = s->pw; break;
    case NES_TRIANGLE: r.steps = 1u << NUM_BITS; break;
    case STRING_SYNTH:
        r.second = s->gain;
        memcpy(r.registration, s->registration, sizeof r.registration);
        break;
    }
    return r;
}

int main(int count, char **words)
{
    static struct settings table[TABLE];
    const struct pitch *pitch = count == 3 ? pitch_named(words[2]) : NULL;
    const struct oscillator *one = pitch ? oscillator_named(words[1]) : NULL;
    if (!pitch || (!one && strcmp(words[1], "all"))) {
        fputs("usage: lists OSCILLATOR|all low|middle|high\n", stderr);
        return 2;
    }
    fill_settings(table, pitch);
    for (size_t i = 0; i < TABLE; i++) {
        struct record r = made(one ? one : &oscillators[i % COUNT_OF(oscillators)], &table[i]);
        fwrite(&r, sizeof r, 1, stdout);
    }
    return written("lists");
}
