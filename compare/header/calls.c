/* Answers call records through navuloqu.h, as crates/calls does. compare/src/calls/record.rs has a record's fields, compare/README.md its
 * line. */
#include <assert.h>

#include "around.h"
#include "lines.h"

#define LONGEST_TRIED 8192 /* twice what is answered: a longer block gets no call, and the line '-' */
#define MOST_WORDS NAVULOQU_VARIABLE_SHAPE_WORDS
#define MOST_ENTRIES (NAVULOQU_REGISTRATION_ENTRIES + 1)

/* Where a record's parameters stand. */
enum {
    FLAGS_AT = 1, /* or the classic's shape, or ANOTHER_CALL */
    LENGTH_AT = 2,
    BITS_AT = 4,
    FREQUENCY_AT = 8,
    MASTER_FREQUENCY_AT = 12,
    GAIN_AT = 12,
    GIVEN_AT = 12, /* a master phase or a sample rate, for another call than `render` */
    PW_AT = 16,
    SHAPE_AT = 16,
    WAVESHAPE_AT = 20,
    PHASE_MODULATION_AT = 24,
    REGISTRATION_AT = 28,
    ENTRIES_AT = 56,
    BUFFER_AT = 60,
    STATE_AT = 64
};

static uint32_t state_room[FENCED(MOST_WORDS)], result_room[FENCED(NAVULOQU_RESULT_WORDS)];
static float out_room[FENCED(LONGEST_TRIED)];
static uint32_t *const state = state_room + FENCE, *const result = result_room + FENCE;
static float *const out = out_room + FENCE;

static uint32_t call_variable_shape(const unsigned char *record, size_t count)
{
    const bool sync = (record[FLAGS_AT] & 1) != 0, phase_output = (record[FLAGS_AT] & 2) != 0;
    return navuloqu_variable_shape_render(state, float_at(record, MASTER_FREQUENCY_AT), float_at(record, FREQUENCY_AT),
                                          float_at(record, PW_AT), float_at(record, WAVESHAPE_AT),
                                          float_at(record, PHASE_MODULATION_AT), sync, phase_output, out, count, result);
}

static uint32_t call_variable_saw(const unsigned char *record, size_t count)
{
    return navuloqu_variable_saw_render(state, float_at(record, FREQUENCY_AT), float_at(record, PW_AT), float_at(record, WAVESHAPE_AT),
                                        out, count, result);
}

static uint32_t call_super_square(const unsigned char *record, size_t count)
{
    return navuloqu_super_square_render(state, float_at(record, FREQUENCY_AT), float_at(record, SHAPE_AT), out, count, result);
}

static uint32_t call_nes_triangle(const unsigned char *record, size_t count)
{
    return navuloqu_nes_triangle_render(state, float_at(record, FREQUENCY_AT), word_at(record, BITS_AT), out, count, result);
}

/* 0 to 8 entries are handed over: the record has seven, and an eighth is 0. */
static uint32_t call_string_synth(const unsigned char *record, size_t count)
{
    const uint32_t asked = word_at(record, ENTRIES_AT);
    const size_t entries = asked < MOST_ENTRIES ? asked : MOST_ENTRIES;
    float registration[MOST_ENTRIES] = {0};
    for (size_t i = 0; i < NAVULOQU_REGISTRATION_ENTRIES; i++)
        registration[i] = float_at(record, REGISTRATION_AT + 4 * i);
    return navuloqu_string_synth_render(state, float_at(record, FREQUENCY_AT), registration, entries, float_at(record, GAIN_AT), out, count,
                                        result);
}

static uint32_t call_classic(const unsigned char *record, size_t count)
{
    return navuloqu_classic_render(state, float_at(record, FREQUENCY_AT), float_at(record, PW_AT), record[FLAGS_AT], out, count, result);
}

/* A call that has no result: the line has zeros in the place of its counts. */
static uint32_t with_result(uint32_t answer)
{
    memset(result, 0, sizeof *result * NAVULOQU_RESULT_WORDS);
    return result[NAVULOQU_RESULT_ANSWER] = answer;
}

static uint32_t set_master_phase(const unsigned char *record, size_t count)
{
    (void)count;
    return with_result(navuloqu_variable_shape_set_master_phase(state, float_at(record, GIVEN_AT)));
}

static uint32_t init_classic(const unsigned char *record, size_t count)
{
    (void)count;
    return with_result(navuloqu_classic_init(state, float_at(record, GIVEN_AT)));
}

/* By a record's first byte. */
#define STRING_SYNTH 5
#define CLASSIC 6
#define ANOTHER_CALL 128 /* by the second byte: not `render` but `other` */
#define MOST_SHAPE 7
typedef uint32_t (*caller)(const unsigned char *record, size_t count);
static const struct {
    caller render, other;
    size_t words;
} kinds[] = {
    {NULL, NULL, 0},
    {call_variable_shape, set_master_phase, NAVULOQU_VARIABLE_SHAPE_WORDS},
    {call_variable_saw, NULL, NAVULOQU_VARIABLE_SAW_WORDS},
    {call_super_square, NULL, NAVULOQU_SUPER_SQUARE_WORDS},
    {call_nes_triangle, NULL, NAVULOQU_NES_TRIANGLE_WORDS},
    {call_string_synth, NULL, NAVULOQU_STRING_SYNTH_WORDS},
    {call_classic, init_classic, NAVULOQU_CLASSIC_WORDS},
};
#define KINDS (sizeof kinds / sizeof *kinds)

/* The state of the record; every sample as the record has it, or else in turn 0.25 to 2; and a result of which each word has to be
 * written. */
static void fill(const unsigned char *record, size_t words, size_t count)
{
    const uint32_t bits = word_at(record, BUFFER_AT);
    put_fences(state_room, words);
    put_fences(result_room, NAVULOQU_RESULT_WORDS);
    put_fences(out_room, count);
    memset(result, 0xff, sizeof *result * NAVULOQU_RESULT_WORDS);
    for (size_t i = 0; i < words; i++)
        state[i] = word_at(record, STATE_AT + 4 * i);
    for (size_t i = 0; i < count; i++)
        out[i] = bits != 0 ? float_of(bits) : (float)(i % 8 + 1) / 4;
}

/* Over the bits of every sample in turn; any NaN counts as the same. */
static uint32_t checksum(size_t count)
{
    uint32_t sum = 0;
    for (size_t i = 0; i < count; i++) {
        uint32_t bits;
        memcpy(&bits, &out[i], sizeof bits);
        sum = next_sum(sum, is_nan(bits) ? 0x7fc00000 : bits);
    }
    return sum;
}

/* The answer is returned and written: where the two differ there is no such number. */
static void put_outcome(char line[LINE_ROOM], uint32_t answer, size_t words, size_t count)
{
    static const int counted[] = {NAVULOQU_RESULT_DRIFT_INDEX, NAVULOQU_RESULT_CYCLES, NAVULOQU_RESULT_RISES, NAVULOQU_RESULT_FALLS,
                                  NAVULOQU_RESULT_CUTS,        NAVULOQU_RESULT_LATE};
    static_assert(1 + sizeof counted / sizeof *counted == NAVULOQU_RESULT_WORDS, "each word of the result is told");
    const uint32_t sum = checksum(count);
    size_t at = answer == result[NAVULOQU_RESULT_ANSWER] ? put_number(line, 0, answer) : put_text(line, 0, "? ");
    for (size_t i = 0; i < sizeof counted / sizeof *counted; i++)
        at = put_number(line, at, result[counted[i]]);
    at = put_words(line, at, state, words, ' ');
    put_words(line, at, &sum, 1, '\n');
}

/* NULL where the call kept to what is its own. */
static const char *beside_fault(size_t words, size_t count)
{
    if (!fences_stand(state_room, words))
        return "a word beside the state's is changed";
    if (!fences_stand(result_room, NAVULOQU_RESULT_WORDS))
        return "a word beside the result's is changed";
    return fences_stand(out_room, count) ? NULL : "a word beside the samples is changed";
}

/* NULL where the header's limits are those at which `render` answers so. */
static const char *limit_fault(const unsigned char *record, uint32_t answer, size_t count)
{
    const bool is_long = count > NAVULOQU_LONGEST_BLOCK;
    const bool is_misfit = !is_long && record[0] == STRING_SYNTH && word_at(record, ENTRIES_AT) != NAVULOQU_REGISTRATION_ENTRIES;
    if ((answer == NAVULOQU_LONG_BLOCK) != is_long)
        return "the longest block is not NAVULOQU_LONGEST_BLOCK";
    if ((answer == NAVULOQU_BAD_REGISTRATION) != is_misfit)
        return "the registration's length is not NAVULOQU_REGISTRATION_ENTRIES";
    return NULL;
}

/* No record has the classic's shape above 7: so the call is made again with such a number, of which any bit above the lowest three may be
 * set. NULL where it is refused in the place of a bad parameter, and leaves everything as the record has it. */
static const char *shape_fault(const struct control *control, const unsigned char *record, uint32_t answer, size_t count)
{
    const uint32_t shape = record[FLAGS_AT] | UINT32_C(8) << (record[STATE_AT] % 29);
    const bool is_before = answer == NAVULOQU_LONG_BLOCK || answer == NAVULOQU_BAD_STATE;
    fill(record, NAVULOQU_CLASSIC_WORDS, count);
    const uint32_t sum = checksum(count), kept = enter(control);
    const uint32_t refused =
        navuloqu_classic_render(state, float_at(record, FREQUENCY_AT), float_at(record, PW_AT), shape, out, count, result);
    if (!leave(control, kept))
        return "MXCSR is changed";
    if (refused != (is_before ? answer : NAVULOQU_BAD_PARAM) || refused != result[NAVULOQU_RESULT_ANSWER])
        return "a shape above 7 is not refused in the place of a bad parameter";
    for (size_t i = 0; i < NAVULOQU_CLASSIC_WORDS; i++)
        if (state[i] != word_at(record, STATE_AT + 4 * i))
            return "a shape above 7 changes the state";
    return checksum(count) == sum ? beside_fault(NAVULOQU_CLASSIC_WORDS, count) : "a shape above 7 changes the samples";
}

/* What a record asks for: NULL where its line is '-'. */
static caller asked(const unsigned char *record, size_t count)
{
    const size_t kind = record[0];
    if (kind >= KINDS || count > LONGEST_TRIED)
        return NULL;
    if (record[FLAGS_AT] == ANOTHER_CALL && kinds[kind].other)
        return kinds[kind].other;
    return kind == CLASSIC && record[FLAGS_AT] > MOST_SHAPE ? NULL : kinds[kind].render;
}

const char *answer_call(const struct control *control, const unsigned char record[CALL_BYTES], char line[LINE_ROOM])
{
    const size_t kind = record[0], count = (size_t)record[LENGTH_AT] | (size_t)record[LENGTH_AT + 1] << 8;
    const caller call = asked(record, count);
    if (!call) {
        put_text(line, 0, "-\n");
        return NULL;
    }
    fill(record, kinds[kind].words, count);
    const uint32_t kept = enter(control);
    const uint32_t answer = call(record, count);
    if (!leave(control, kept))
        return "MXCSR is changed";
    put_outcome(line, answer, kinds[kind].words, count);
    const char *fault = beside_fault(kinds[kind].words, count);
    if (!fault && call == kinds[kind].render)
        fault = limit_fault(record, answer, count);
    return !fault && call == call_classic ? shape_fault(control, record, answer, count) : fault;
}
