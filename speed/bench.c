/* Holds the implementations' samples to the first one's, bit by bit, and times them against each other in one process. speed/run builds and
 * runs it. */
#define _POSIX_C_SOURCE 200809L
#include <stdarg.h>
#include <stdio.h>
#include <stdlib.h>
#include <time.h>

#include "cells.h"
#include "written.h"

#define IMPLEMENTATION_COUNT COUNT_OF(implementations)

/* The settings of the cell that is measured, how many units of it, and how often. */
static struct settings table[TABLE];
static size_t units, repetitions;

static void fail(int status, const char *format, ...)
{
    va_list words;
    va_start(words, format);
    fflush(stdout);
    fputs("bench: ", stderr);
    vfprintf(stderr, format, words);
    fputc('\n', stderr);
    exit(status);
}

static bool same(float a, float b)
{
    return memcmp(&a, &b, sizeof a) == 0 || (a != a && b != b);
}

/* Ends with status 1 where a sample differs from the first implementation's or a call is not answered by 0. */
static void check(const struct cell *cell)
{
    static float want[UNIT], got[UNIT];
    struct state states[IMPLEMENTATION_COUNT];
    for (size_t k = 0; k < IMPLEMENTATION_COUNT; k++)
        states[k] = started(&implementations[k], cell->oscillator);
    for (size_t unit = 0; unit < units; unit++)
        for (size_t k = 0; k < IMPLEMENTATION_COUNT; k++) {
            const char *name = implementations[k].name, *oscillator = cell->oscillator->name, *pitch = cell->pitch->name;
            float *out = k == 0 ? want : got;
            if (render_unit(&implementations[k], cell, &states[k], table, unit, out) != 0)
                fail(1, "%s refuses a block of %s, %s, blocks of %zu, in unit %zu", name, oscillator, pitch, cell->block, unit);
            for (size_t i = 0; k != 0 && i < UNIT; i++)
                if (!same(want[i], got[i]))
                    fail(1, "%s differs from %s: %s, %s, blocks of %zu, sample %zu: %.9g and %.9g", name, implementations[0].name, oscillator, pitch,
                         cell->block, unit * UNIT + i, got[i], want[i]);
        }
}

static void print_heading(void)
{
    printf("| oscillator              | pitch  | block | %8s |", implementations[0].name);
    for (size_t k = 1; k < IMPLEMENTATION_COUNT; k++)
        printf(" %8s | ratio |", implementations[k].name);
    printf("\n|---|---|---|---|");
    for (size_t k = 1; k < IMPLEMENTATION_COUNT; k++)
        printf("---|---|");
    printf("\n");
}

static void print_row(const struct cell *cell, const double each[IMPLEMENTATION_COUNT])
{
    printf("| %-23s | %-6s | %5zu | %8.2f |", cell->oscillator->name, cell->pitch->name, cell->block, each[0]);
    for (size_t k = 1; k < IMPLEMENTATION_COUNT; k++)
        printf(" %8.2f | %5.2f |", each[k], each[k] / each[0]);
    printf("\n");
    fflush(stdout);
}

static uint64_t nanoseconds(void)
{
    struct timespec t;
    clock_gettime(CLOCK_MONOTONIC, &t);
    return (uint64_t)t.tv_sec * 1000000000u + (uint64_t)t.tv_nsec;
}

/* Nanoseconds a sample of each implementation: the sum over the units of the least of the repetitions. They take turns at each unit, and who
 * begins changes. They share the buffer, so that none has it nearer. */
static void time_turns(const struct cell *cell)
{
    static _Alignas(64) float out[UNIT];
    double each[IMPLEMENTATION_COUNT];
    uint64_t(*least)[IMPLEMENTATION_COUNT] = malloc(units * sizeof *least);
    if (!least)
        fail(2, "no memory for %zu units", units);
    memset(least, 0xff, units * sizeof *least);
    for (size_t repetition = 0; repetition < repetitions; repetition++) {
        struct state states[IMPLEMENTATION_COUNT];
        for (size_t k = 0; k < IMPLEMENTATION_COUNT; k++)
            states[k] = started(&implementations[k], cell->oscillator);
        for (size_t unit = 0; unit < units; unit++)
            for (size_t turn = 0; turn < IMPLEMENTATION_COUNT; turn++) {
                size_t k = (turn + repetition + unit) % IMPLEMENTATION_COUNT;
                uint64_t began = nanoseconds();
                render_unit(&implementations[k], cell, &states[k], table, unit, out);
                uint64_t took = nanoseconds() - began;
                if (took < least[unit][k])
                    least[unit][k] = took;
            }
    }
    for (size_t k = 0; k < IMPLEMENTATION_COUNT; k++) {
        uint64_t sum = 0;
        for (size_t unit = 0; unit < units; unit++)
            sum += least[unit][k];
        each[k] = (double)sum / (double)(units * UNIT);
    }
    free(least);
    print_row(cell, each);
}

/* Whether every word names the cell's oscillator, its pitch or its block length. */
static bool chosen(const struct cell *cell, char **words)
{
    char block[24];
    snprintf(block, sizeof block, "%zu", cell->block);
    for (; *words; words++)
        if (strcmp(*words, cell->oscillator->name) && strcmp(*words, cell->pitch->name) && strcmp(*words, block))
            return false;
    return true;
}

static void for_chosen(char **words, void (*measured)(const struct cell *))
{
    bool any = false;
    for (size_t o = 0; o < COUNT_OF(oscillators); o++)
        for (size_t p = 0; p < COUNT_OF(pitches); p++)
            for (size_t b = 0; b < COUNT_OF(blocks); b++) {
                struct cell cell = {&oscillators[o], &pitches[p], blocks[b]};
                if (!chosen(&cell, words))
                    continue;
                any = true;
                fill_settings(table, cell.pitch);
                measured(&cell);
            }
    if (!any)
        fail(2, "no cell has these words");
}

static size_t number(const char *word)
{
    char *end;
    unsigned long n = strtoul(word, &end, 10);
    if (*end || end == word || n == 0 || n > 100000)
        fail(2, "a number from 1 to 100000 is needed, not %s", word);
    return n;
}

/* One implementation alone, for who counts instructions inside its render function. */
static void run(char **words)
{
    static float out[UNIT];
    struct cell cell = {oscillator_named(words[1]), pitch_named(words[2]), number(words[3])};
    size_t k = 0;
    units = number(words[4]);
    while (k < IMPLEMENTATION_COUNT && strcmp(words[0], implementations[k].name))
        k++;
    if (k == IMPLEMENTATION_COUNT || !cell.oscillator || !cell.pitch || UNIT % cell.block)
        fail(2, "there is no implementation, oscillator, pitch or block %s %s %s %s", words[0], words[1], words[2], words[3]);
    fill_settings(table, cell.pitch);
    struct state state = started(&implementations[k], cell.oscillator);
    for (size_t unit = 0; unit < units; unit++)
        if (render_unit(&implementations[k], &cell, &state, table, unit, out) != 0)
            fail(1, "%s refuses a block of %s, %s", words[0], words[1], words[2]);
}

int main(int count, char **words)
{
    const char *what = count > 1 ? words[1] : "";
    if (!strcmp(what, "times") && count >= 4) {
        repetitions = number(words[2]);
        units = number(words[3]);
        for_chosen(words + 4, check);
        print_heading();
        for_chosen(words + 4, time_turns);
    } else if (!strcmp(what, "check") && count >= 3) {
        units = number(words[2]);
        for_chosen(words + 3, check);
    } else if (!strcmp(what, "run") && count == 7) {
        run(words + 2);
    } else {
        fail(2, "usage: bench times REPETITIONS UNITS [WORD..] | bench check UNITS [WORD..] | bench run IMPLEMENTATION OSCILLATOR PITCH BLOCK UNITS");
    }
    return written("bench");
}
