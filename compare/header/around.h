/* What stands around each call: MXCSR is set before it and looked at after it, and beside what a call may write stand words that it may
 * not, or bytes. */
#ifndef AROUND_H
#define AROUND_H

#include <string.h>
#include <xmmintrin.h>

#include "answers.h"
#include "navuloqu.h"

/* An odd number of words, so that nothing that is handed over is aligned to more than a word: the header asks for no more. */
#define FENCE 17
#define FENCED(words) (FENCE + (words) + FENCE)
#define FENCE_BYTES (4 * FENCE)
#define FENCED_BYTES(bytes) (FENCE_BYTES + (bytes) + FENCE_BYTES)
#define FENCE_BYTE 0xa5

/* In memory of FENCED_BYTES(count) bytes. */
static inline void put_fences_by_bytes(void *memory, size_t count)
{
    unsigned char *bytes = (unsigned char *)memory;
    memset(bytes, FENCE_BYTE, FENCE_BYTES);
    memset(bytes + FENCE_BYTES + count, FENCE_BYTE, FENCE_BYTES);
}

static inline bool fences_stand_by_bytes(const void *memory, size_t count)
{
    const unsigned char *before = (const unsigned char *)memory, *after = before + FENCE_BYTES + count;
    for (size_t i = 0; i < FENCE_BYTES; i++)
        if (before[i] != FENCE_BYTE || after[i] != FENCE_BYTE)
            return false;
    return true;
}

/* In memory of FENCED(words) words. */
static inline void put_fences(void *memory, size_t words)
{
    put_fences_by_bytes(memory, 4 * words);
}

static inline bool fences_stand(const void *memory, size_t words)
{
    return fences_stand_by_bytes(memory, 4 * words);
}

#define MXCSR_FLAGS 0x3fu /* the exceptions that came up */

/* Before a call: what it returns is handed to `leave`. MXCSR is set by the compiler's own function, so that the header's guard is held to
 * something else than itself. */
static inline uint32_t enter(const struct control *control)
{
    _mm_setcsr(control->word);
    return control->is_guarded ? navuloqu_guard_begin() : 0;
}

/* After it: whether MXCSR is as it was. The guard puts back the flags too; without it a call may raise some. */
static inline bool leave(const struct control *control, uint32_t kept)
{
    const uint32_t passed_over = control->is_guarded ? 0 : MXCSR_FLAGS;
    if (control->is_guarded)
        navuloqu_guard_end(kept);
    const uint32_t left = _mm_getcsr();
    _mm_setcsr(MXCSR_START);
    return (left | passed_over) == (control->word | passed_over);
}

#endif
