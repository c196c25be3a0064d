/* Sweeps the string oscillator upward through the pitch that is too high, and prints what it was told. Any frequency is answered, by number.

   tools/archive
   cc -O2 -o target/sweep examples/sweep.c target/staticlib/libnavuloqu.a && target/sweep

   On Arm with Debian's gcc-x86-64-linux-gnu and qemu-user, x86_64-linux-gnu-gcc in place of cc, and then qemu-x86_64 -L /usr/x86_64-linux-gnu target/sweep */
#include <stdio.h>
#include <string.h>

#include "../include/navuloqu.h"

int main(void)
{
    static const float registration[NAVULOQU_REGISTRATION_ENTRIES] = {0.4f, 0.2f, 0.2f, 0.0f, 0.1f, 0.0f, 0.1f};
    static const float frequencies[] = {0.01f, 0.0625f, 0.125f, 0.25f, 0.5f, 0.50000006f, 0.75f, 1.0f, 1.5f, 0.01f};
    uint32_t state[NAVULOQU_STRING_SYNTH_WORDS], result[NAVULOQU_RESULT_WORDS];
    float block[64];

    navuloqu_string_synth_init(state);
    for (size_t i = 0; i < sizeof frequencies / sizeof *frequencies; i++) {
        memset(block, 0, sizeof block); /* the string adds to what the buffer holds */
        const uint32_t answer =
            navuloqu_string_synth_render(state, frequencies[i], registration, NAVULOQU_REGISTRATION_ENTRIES, 0.5f, block, 64, result);
        float peak = 0.0f;
        for (int k = 0; k < 64; k++)
            peak = block[k] > peak ? block[k] : -block[k] > peak ? -block[k] : peak;
        printf("frequency %-12.8g answer %u (%s), %u cycles, %u rises, peak %.3f\n", frequencies[i], (unsigned)answer, navuloqu_answer_name(answer),
               (unsigned)result[NAVULOQU_RESULT_CYCLES], (unsigned)result[NAVULOQU_RESULT_RISES], peak);
    }
    if (ferror(stdout) || fflush(stdout) != 0) {
        perror("sweep: cannot write standard output");
        return 2;
    }
    return 0;
}
