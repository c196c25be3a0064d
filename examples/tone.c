/* Renders a second of the super square, block by block, and writes it as a WAV file. Every answer is looked at: what is refused ends it.

   tools/archive
   cc -O2 -o target/tone examples/tone.c target/staticlib/libnavuloqu.a && target/tone target/tone.wav

   On Arm with Debian's gcc-x86-64-linux-gnu and qemu-user, x86_64-linux-gnu-gcc in place of cc, and then
   qemu-x86_64 -L /usr/x86_64-linux-gnu target/tone target/tone.wav */
#include <stdio.h>

#include "../include/navuloqu.h"

#define RATE 48000
#define BLOCK 64 /* a second is a whole number of them */

static float samples[RATE];
static uint8_t bytes[NAVULOQU_WAVE_BYTES(RATE)];

static bool is_done(const char *what, uint32_t answer)
{
    if (answer != NAVULOQU_DONE)
        fprintf(stderr, "tone: %s is refused with %u (%s)\n", what, (unsigned)answer, navuloqu_answer_name(answer));
    return answer == NAVULOQU_DONE;
}

/* 220 Hz, under a shape that moves from 0 to 1. */
static bool render(void)
{
    uint32_t state[NAVULOQU_SUPER_SQUARE_WORDS], result[NAVULOQU_RESULT_WORDS];
    navuloqu_super_square_init(state);
    for (size_t at = 0; at < RATE; at += BLOCK)
        if (!is_done("a block", navuloqu_super_square_render(state, 220.0f / RATE, (float)at / RATE, samples + at, BLOCK, result)))
            return false;
    return true;
}

static bool save(const char *name)
{
    FILE *file = fopen(name, "wb");
    const bool is_written = file && fwrite(bytes, 1, sizeof bytes, file) == sizeof bytes;
    const bool is_closed = file && fclose(file) == 0;
    if (!is_written || !is_closed)
        perror(name);
    return is_written && is_closed;
}

int main(int count, char **words)
{
    if (count != 2) {
        fputs("usage: tone FILE.wav\n", stderr);
        return 2;
    }
    if (!render() || !is_done("the stem", navuloqu_wave_write(RATE, samples, RATE, bytes, sizeof bytes)))
        return 1;
    return save(words[1]) ? 0 : 2;
}
