/* The implementations that are measured: functions of the face's shape, as include/navuloqu.h declares them, under a prefix each; under
 * `navuloqu` these are the header's own names, which stand for the archive's. The first is the one that the others are held to.
 * -D'IMPLEMENTATIONS(X)=X(rust) X(again) X(other)' names others. */
#ifndef IMPLEMENTATIONS_H
#define IMPLEMENTATIONS_H

#include "../include/navuloqu.h"

#ifndef IMPLEMENTATIONS
#define IMPLEMENTATIONS(X) X(rust) X(again) X(navuloqu)
#endif

#define EACH_OSCILLATOR(X, p) X(p, super_square) X(p, variable_shape) X(p, variable_saw) X(p, nes_triangle) X(p, string_synth) X(p, classic)

#define DECLARED(p, o)                                         \
    extern __typeof__(navuloqu_##o##_init) p##_##o##_init;     \
    extern __typeof__(navuloqu_##o##_render) p##_##o##_render;
#define DECLARED_ALL(p) EACH_OSCILLATOR(DECLARED, p)
IMPLEMENTATIONS(DECLARED_ALL)

#define MEMBER(p, o)                                 \
    struct {                                         \
        __typeof__(navuloqu_##o##_init) *init;       \
        __typeof__(navuloqu_##o##_render) *render;   \
    } o;
struct implementation {
    const char *name;
    EACH_OSCILLATOR(MEMBER, )
};

#define FUNCTIONS(p, o) {p##_##o##_init, p##_##o##_render},
#define ROW(p) {#p, EACH_OSCILLATOR(FUNCTIONS, p)},
static const struct implementation implementations[] = {IMPLEMENTATIONS(ROW)};

#define COUNT_OF(array) (sizeof(array) / sizeof *(array))

#endif
