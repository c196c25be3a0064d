/* Ignores what each function of navuloqu.h returns that has to be looked at, the answers and the guard's word: the compiler has to warn of each.
 * With -DLOOKED_AT it looks at them, and has to compile. It is never run. */
#include "navuloqu.h"

#ifdef LOOKED_AT
#define CALLED(call) answers |= (call)
#else
#define CALLED(call) call
#endif

uint32_t all_answers(uint32_t *state, float *out, uint32_t *result, uint8_t *bytes);

uint32_t all_answers(uint32_t *state, float *out, uint32_t *result, uint8_t *bytes)
{
    uint32_t answers = 0;
    const float registration[NAVULOQU_REGISTRATION_ENTRIES] = {1, 0, 0, 0, 0, 0, 0};
    CALLED(navuloqu_variable_shape_render(state, 0.01f, 0.01f, 0.5f, 0, 0, false, false, out, 1, result));
    CALLED(navuloqu_variable_shape_set_master_phase(state, 0.5f));
    CALLED(navuloqu_variable_saw_render(state, 0.01f, 0.5f, 0, out, 1, result));
    CALLED(navuloqu_super_square_render(state, 0.01f, 0, out, 1, result));
    CALLED(navuloqu_nes_triangle_render(state, 0.01f, 4, out, 1, result));
    CALLED(navuloqu_string_synth_render(state, 0.01f, registration, NAVULOQU_REGISTRATION_ENTRIES, 1, out, 1, result));
    CALLED(navuloqu_classic_init(state, 48000));
    CALLED(navuloqu_classic_render(state, 0.01f, 0.5f, 0, out, 1, result));
    CALLED(navuloqu_wave_write(48000, out, 1, bytes, NAVULOQU_WAVE_BYTES(1)));
    CALLED(navuloqu_guard_begin());
    return answers;
}
