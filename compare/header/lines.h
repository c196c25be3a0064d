/* Words are read from a record, and put into a line as crates/testing does. */
#ifndef LINES_H
#define LINES_H

#include <inttypes.h>
#include <stdio.h>
#include <string.h>

#include "answers.h"

/* Four bytes, the lowest first. */
static inline uint32_t word_at(const unsigned char *record, size_t at)
{
    return (uint32_t)record[at] | (uint32_t)record[at + 1] << 8 | (uint32_t)record[at + 2] << 16 | (uint32_t)record[at + 3] << 24;
}

/* By its bits, a NaN's too: nothing is computed with it here. */
static inline float float_of(uint32_t bits)
{
    float value;
    memcpy(&value, &bits, sizeof value);
    return value;
}

static inline float float_at(const unsigned char *record, size_t at)
{
    return float_of(word_at(record, at));
}

static inline bool is_nan(uint32_t bits)
{
    return (bits & 0x7fffffff) > 0x7f800000;
}

/* One word more in a checksum. */
static inline uint32_t next_sum(uint32_t sum, uint32_t word)
{
    return (uint32_t)(((uint64_t)sum * 1000003 + word) % 4294967291);
}

/* Each answers the place after what it has put. */
static inline size_t put_text(char line[LINE_ROOM], size_t at, const char *text)
{
    return at + (size_t)snprintf(line + at, LINE_ROOM - at, "%s", text);
}

static inline size_t put_number(char line[LINE_ROOM], size_t at, uint32_t number)
{
    return at + (size_t)snprintf(line + at, LINE_ROOM - at, "%" PRIu32 " ", number);
}

/* Eight hexadecimal digits each, a space between them. */
static inline size_t put_words(char line[LINE_ROOM], size_t at, const uint32_t *words, size_t count, char last)
{
    for (size_t i = 0; i < count; i++)
        at += (size_t)snprintf(line + at, LINE_ROOM - at, "%08" PRIx32 "%c", words[i], i + 1 < count ? ' ' : last);
    return at;
}

#endif
