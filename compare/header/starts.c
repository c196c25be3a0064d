/* Answers through navuloqu.h what crates/starts prints of the exported functions: the states that `init` leaves, the phases that are set,
 * and the classic's `init` at any rate. */
#include "around.h"
#include "lines.h"

#define MOST_WORDS NAVULOQU_VARIABLE_SHAPE_WORDS

static uint32_t state_room[FENCED(MOST_WORDS)];
static uint32_t *const state = state_room + FENCE;

#define RATE 48000 /* of the classic's starting line */

/* One that is refused leaves all bits set, and so it is seen. */
static void init_classic(uint32_t *words)
{
    if (navuloqu_classic_init(words, RATE) != NAVULOQU_DONE)
        memset(words, 0xff, sizeof *words * NAVULOQU_CLASSIC_WORDS);
}

static const struct {
    const char *name;
    void (*init)(uint32_t *state);
    size_t words;
} oscillators[OSCILLATORS] = {
    {"variable shape, exported init: ", navuloqu_variable_shape_init, NAVULOQU_VARIABLE_SHAPE_WORDS},
    {"variable saw, exported init: ", navuloqu_variable_saw_init, NAVULOQU_VARIABLE_SAW_WORDS},
    {"super square, exported init: ", navuloqu_super_square_init, NAVULOQU_SUPER_SQUARE_WORDS},
    {"NES triangle, exported init: ", navuloqu_nes_triangle_init, NAVULOQU_NES_TRIANGLE_WORDS},
    {"string synth, exported init: ", navuloqu_string_synth_init, NAVULOQU_STRING_SYNTH_WORDS},
    {"classic, exported init: ", init_classic, NAVULOQU_CLASSIC_WORDS},
};

/* Before it each word has all its bits set, so that one that it leaves alone is seen. */
const char *answer_start(const struct control *control, size_t oscillator, char line[LINE_ROOM])
{
    const size_t words = oscillators[oscillator].words;
    put_fences(state_room, words);
    memset(state, 0xff, sizeof *state * words);
    const uint32_t kept = enter(control);
    oscillators[oscillator].init(state);
    if (!leave(control, kept))
        return "MXCSR is changed";
    if (!fences_stand(state_room, words))
        return "a word beside the state's is changed";
    put_words(line, put_text(line, 0, oscillators[oscillator].name), state, words, '\n');
    return NULL;
}

typedef uint32_t (*starting)(uint32_t *state, float given);

/* The call on the first words of a record, and its answer and the words that it left, from `at` on. A record is ten words, of which the
 * classic's state has nine, and a phase, which is a rate for the classic. */
static const char *put_given(const struct control *control, const unsigned char *record, starting call, size_t words, char line[LINE_ROOM],
                             size_t at, char last)
{
    put_fences(state_room, words);
    for (size_t i = 0; i < words; i++)
        state[i] = word_at(record, 4 * i);
    const uint32_t kept = enter(control);
    const uint32_t answer = call(state, float_at(record, START_BYTES - 4));
    if (!leave(control, kept))
        return "MXCSR is changed";
    if (!fences_stand(state_room, words))
        return "a word beside the state's is changed";
    put_words(line, put_number(line, at, answer), state, words, last);
    return NULL;
}

const char *answer_given(const struct control *control, const unsigned char record[START_BYTES], char line[LINE_ROOM])
{
    const char *fault =
        put_given(control, record, navuloqu_variable_shape_set_master_phase, NAVULOQU_VARIABLE_SHAPE_WORDS, line, 0, ' ');
    if (fault)
        return fault;
    return put_given(control, record, navuloqu_classic_init, NAVULOQU_CLASSIC_WORDS, line, strlen(line), '\n');
}
