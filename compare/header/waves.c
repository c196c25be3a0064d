/* Answers records of samples through navuloqu.h, as crates/waves does. compare/README.md has a record's fields and its line. */
#include "around.h"
#include "lines.h"

/* More than a stem has at most, and more bytes than the longest one: a record that asks for still more gets no call, and the line '-'. */
#define MOST_SAMPLES 1048577
#define MOST_BYTES 2097204
#define MOST_RATE 384000
#define LENT_BYTE 165

/* Where a record's fields stand. */
enum { RATE_AT = 0, COUNT_AT = 4, ROOM_AT = 8, PLACE_AT = 12, PLACED_AT = 16, PATTERNS_AT = 20 };
#define PATTERNS 11

static float samples_room[FENCED(MOST_SAMPLES)];
static float *const samples = samples_room + FENCE;

/* The lent bytes begin at an odd address: the header asks for no alignment of them. */
static unsigned char bytes_memory[1 + FENCED_BYTES(MOST_BYTES)];
static unsigned char *const bytes_room = bytes_memory + 1, *const bytes = bytes_memory + 1 + FENCE_BYTES;

/* The bits of a sample: eleven patterns in turn, and another one at a place. */
static uint32_t bits_of(const unsigned char *record, size_t i)
{
    const bool is_placed = i == word_at(record, PLACE_AT);
    return is_placed ? word_at(record, PLACED_AT) : word_at(record, PATTERNS_AT + 4 * (i % PATTERNS));
}

static void fill(const unsigned char *record, size_t count, size_t room)
{
    put_fences(samples_room, count);
    put_fences_by_bytes(bytes_room, room);
    memset(bytes, LENT_BYTE, room);
    for (size_t i = 0; i < count; i++) {
        const uint32_t bits = bits_of(record, i);
        memcpy(&samples[i], &bits, sizeof bits);
    }
}

/* NULL where the call kept to what is its own, and left the samples. */
static const char *beside_fault(const unsigned char *record, size_t count, size_t room)
{
    if (!fences_stand_by_bytes(bytes_room, room))
        return "a byte beside the lent ones is changed";
    if (!fences_stand(samples_room, count))
        return "a word beside the samples is changed";
    for (size_t i = 0; i < count; i++) {
        const uint32_t bits = bits_of(record, i);
        if (memcmp(&samples[i], &bits, sizeof bits) != 0)
            return "a sample is changed";
    }
    return NULL;
}

/* The answer by the header's limits. */
static uint32_t expected_of(const unsigned char *record, size_t count, size_t room)
{
    const uint32_t rate = word_at(record, RATE_AT);
    bool is_fit = rate >= 1 && rate <= MOST_RATE && count <= NAVULOQU_WAVE_MOST_SAMPLES;
    for (size_t i = 0; i < count; i++)
        is_fit = is_fit && !is_nan(bits_of(record, i));
    if (!is_fit)
        return NAVULOQU_BAD_PARAM;
    return room < NAVULOQU_WAVE_BYTES(count) ? NAVULOQU_NO_ROOM : NAVULOQU_DONE;
}

static uint32_t sum_of(size_t room)
{
    uint32_t sum = 0;
    for (size_t i = 0; i < room; i++)
        sum = next_sum(sum, bytes[i]);
    return sum;
}

const char *answer_wave(const struct control *control, const unsigned char record[WAVE_BYTES], char line[LINE_ROOM])
{
    const size_t count = word_at(record, COUNT_AT), room = word_at(record, ROOM_AT);
    if (count > MOST_SAMPLES || room > MOST_BYTES) {
        put_text(line, 0, "-\n");
        return NULL;
    }
    fill(record, count, room);
    const uint32_t kept = enter(control);
    const uint32_t answer = navuloqu_wave_write(word_at(record, RATE_AT), samples, count, bytes, room);
    if (!leave(control, kept))
        return "MXCSR is changed";
    const uint32_t sum = sum_of(room);
    put_words(line, put_number(line, 0, answer), &sum, 1, '\n');
    if (answer != expected_of(record, count, room))
        return "the answer is not the one that the header's limits give";
    return beside_fault(record, count, room);
}
