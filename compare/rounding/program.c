/* Holds the numbers that navuloqu_wave_write gives samples against the boundaries between two numbers. compare/rounding/run compiles and runs it.
 *
 *   program COUNT SEED | program all
 *
 * Standard input is a table of 32,767 words: for each number from 0 on the bits of the least float whose number is above it. So the number of any other
 * float is how many of them lie at or below it, and a float with a sign has its number negated. First come the floats on both sides of every boundary,
 * with both signs, and then COUNT random ones; or every bit pattern that is no NaN. The status is 1 where a number is another, 2 where something cannot
 * be read or written. */
#include <errno.h>
#include <inttypes.h>
#include <stdarg.h>
#include <stdbool.h>
#include <stdio.h>
#include <stdlib.h>
#include <string.h>

#include "navuloqu.h"

#define BOUNDARIES 32767u
#define SIGN 0x80000000u
#define INFINITE 0x7f800000u /* whose bits are the last before the NaN */
#define ONE 0x3f800000u
#define MOST_SAMPLES 1048576u /* in one call */
#define HEADER_BYTES 44u

static uint32_t table[BOUNDARIES];

/* What is collected for the next call, by its bits. */
static uint32_t waiting[MOST_SAMPLES];
static size_t count;
static uint64_t agreed;

/* A difference is what is looked for, and no error of this program. */
static void fail(int status, const char *format, ...)
{
    FILE *to = status == 1 ? stdout : stderr;
    va_list words;
    va_start(words, format);
    fputs("rounding: ", to);
    vfprintf(to, format, words);
    fputc('\n', to);
    va_end(words);
    exit(status);
}

static void read_table(void)
{
    unsigned char bytes[4];
    for (size_t k = 0; k < BOUNDARIES; k++) {
        if (fread(bytes, 1, sizeof bytes, stdin) != sizeof bytes)
            fail(2, "the table is not read: %s", ferror(stdin) ? strerror(errno) : "it is too short");
        table[k] = (uint32_t)bytes[0] | (uint32_t)bytes[1] << 8 | (uint32_t)bytes[2] << 16 | (uint32_t)bytes[3] << 24;
    }
}

/* How many boundaries lie at or below a float without its sign. */
static uint32_t boundaries_below(uint32_t size)
{
    uint32_t least = 0, most = BOUNDARIES;
    while (least < most) {
        const uint32_t middle = (least + most) / 2;
        if (table[middle] <= size)
            least = middle + 1;
        else
            most = middle;
    }
    return least;
}

static void hold(uint32_t bits, const uint8_t *written)
{
    const int32_t size = (int32_t)boundaries_below(bits & ~SIGN);
    const int32_t expected = bits & SIGN ? -size : size;
    const int32_t word = written[0] | written[1] << 8;
    const int32_t got = word < 32768 ? word : word - 65536;
    if (got != expected)
        fail(1, "the sample %08" PRIx32 " differs: expected %" PRId32 ", got %" PRId32, bits, expected, got);
}

/* Hands over what waits. */
static void call(void)
{
    static float samples[MOST_SAMPLES];
    static uint8_t out[HEADER_BYTES + 2 * MOST_SAMPLES];
    memcpy(samples, waiting, count * sizeof *samples);
    const uint32_t answer = navuloqu_wave_write(48000, samples, count, out, HEADER_BYTES + 2 * count);
    if (answer != 0)
        fail(1, "%zu samples from %08" PRIx32 " on are answered by %" PRIu32, count, waiting[0], answer);
    for (size_t i = 0; i < count; i++)
        hold(waiting[i], out + HEADER_BYTES + 2 * i);
    agreed += count;
    count = 0;
}

static void try_sample(uint32_t bits)
{
    waiting[count++] = bits;
    if (count == MOST_SAMPLES)
        call();
}

static void try_with_both_signs(uint32_t size)
{
    try_sample(size);
    try_sample(size | SIGN);
}

/* splitmix64, as compare has it. */
static uint32_t random_bits(uint64_t *state)
{
    uint64_t z = *state += 0x9e3779b97f4a7c15u;
    z = (z ^ z >> 30) * 0xbf58476d1ce4e5b9u;
    z = (z ^ z >> 27) * 0x94d049bb133111ebu;
    return (uint32_t)((z ^ z >> 31) >> 32);
}

/* Any bits that are no NaN, or a float that is at most four away from a boundary. */
static uint32_t random_sample(uint64_t *state)
{
    const uint32_t bits = random_bits(state), any = random_bits(state);
    const uint32_t size = bits & 1 ? table[bits / 2 % BOUNDARIES] - 4 + any / 2 % 9 : any & ~SIGN;
    return (any & SIGN) | (size > INFINITE ? ONE - 4 + size % 9 : size);
}

/* How many were tried. */
static uint64_t try_boundaries(void)
{
    for (size_t k = 0; k < BOUNDARIES; k++) {
        try_with_both_signs(table[k] - 1);
        try_with_both_signs(table[k]);
    }
    for (uint32_t size = ONE - 1; size <= ONE + 1; size++)
        try_with_both_signs(size);
    try_with_both_signs(0);
    try_with_both_signs(INFINITE);
    call();
    return agreed;
}

static void try_random(uint64_t number, uint64_t seed)
{
    uint64_t state = seed;
    const uint64_t beside = try_boundaries();
    for (uint64_t i = 0; i < number; i++)
        try_sample(random_sample(&state));
    call();
    printf("rounding: %" PRIu64 " samples beside the boundaries and %" PRIu64 " random ones have the numbers of the table (seed %" PRIu64 ")\n", beside,
           agreed - beside, seed);
}

static void try_all(void)
{
    for (uint32_t size = 0; size <= INFINITE; size++)
        try_with_both_signs(size);
    call();
    printf("rounding: all %" PRIu64 " bit patterns that are no NaN have the numbers of the table\n", agreed);
}

static uint64_t number_of(const char *word)
{
    char *end;
    errno = 0;
    const uint64_t number = strtoull(word, &end, 10);
    if (errno != 0 || *end != '\0' || end == word)
        fail(2, "%s is no whole number", word);
    return number;
}

int main(int words, char **given)
{
    const bool all = words == 2 && strcmp(given[1], "all") == 0;
    if (!all && words != 3)
        fail(2, "usage: program COUNT SEED | program all");
    read_table();
    if (all)
        try_all();
    else
        try_random(number_of(given[1]), number_of(given[2]));
    if (fclose(stdout) != 0)
        fail(2, "standard output is not written: %s", strerror(errno));
    return 0;
}
