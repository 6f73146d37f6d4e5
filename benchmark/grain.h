/* Grain-128 and Grain-128a by hand: 32 clocks at a time, and one at a time.
   A register is three overlapping 64-bit windows of its 128 bits, from bits 0, 32 and 64 on: the 32 bits from any index up to 96 on are one
   shift of one window, and 32 clocks move each window into the one below it. */
#ifndef GRAIN_H
#define GRAIN_H

#include <stdint.h>
#include <string.h>

typedef struct {
    uint64_t low, middle, high;
} window;

typedef struct {
    window s, b;
} grain;

#define S(i) ((i) <= 32 ? g->s.low >> ((i) & 63) : (i) <= 64 ? g->s.middle >> (((i) - 32) & 63) : g->s.high >> (((i) - 64) & 63))
#define B(i) ((i) <= 32 ? g->b.low >> ((i) & 63) : (i) <= 64 ? g->b.middle >> (((i) - 32) & 63) : g->b.high >> (((i) - 64) & 63))

static inline __attribute__((always_inline)) uint64_t grain_linear(const grain *g)
{
    return S(0) ^ S(7) ^ S(38) ^ S(70) ^ S(81) ^ S(96);
}

static inline __attribute__((always_inline)) uint64_t grain_nonlinear(const grain *g, int a)
{
    uint64_t x = S(0) ^ B(0) ^ B(26) ^ B(56) ^ B(91) ^ B(96) ^ (B(3) & B(67)) ^ (B(11) & B(13)) ^ (B(17) & B(18)) ^ (B(27) & B(59))
               ^ (B(40) & B(48)) ^ (B(61) & B(65)) ^ (B(68) & B(84));
    if (a)
        x ^= (B(88) & B(92) & B(93) & B(95)) ^ (B(22) & B(24) & B(25)) ^ (B(70) & B(78) & B(82));
    return x;
}

static inline __attribute__((always_inline)) uint64_t grain_output(const grain *g, int a)
{
    return B(2) ^ B(15) ^ B(36) ^ B(45) ^ B(64) ^ B(73) ^ B(89) ^ S(93) ^ (S(13) & S(20)) ^ (B(95) & S(42)) ^ (S(60) & S(79))
         ^ (B(12) & (S(8) ^ (B(95) & (a ? S(94) : S(95)))));
}

/* 32 clocks. */
static inline __attribute__((always_inline)) void window_up(window *w, uint32_t x)
{
    w->low = w->middle;
    w->middle = w->high;
    w->high = w->high >> 32 | (uint64_t)x << 32;
}

static inline __attribute__((always_inline)) uint32_t grain_word(grain *g, int a)
{
    uint32_t z = (uint32_t)grain_output(g, a), l = (uint32_t)grain_linear(g), n = (uint32_t)grain_nonlinear(g, a);
    window_up(&g->s, l);
    window_up(&g->b, n);
    return z;
}

/* Fewer than 32 clocks, at least one. */
static inline __attribute__((always_inline)) void window_some(window *w, uint64_t x, unsigned n)
{
    uint64_t kept = w->high >> n | x << (64 - n);
    w->low = w->low >> n | w->high << (64 - n);
    w->high = kept;
    w->middle = w->low >> 32 | w->high << 32;
}

static inline __attribute__((always_inline)) uint32_t grain_some(grain *g, int a, unsigned n)
{
    uint32_t z = (uint32_t)grain_output(g, a) & ((UINT32_C(1) << n) - 1);
    uint64_t l = grain_linear(g), f = grain_nonlinear(g, a);
    window_some(&g->s, l, n);
    window_some(&g->b, f, n);
    return z;
}

static inline window window_of(const uint8_t *octets)
{
    window w;
    memcpy(&w.low, octets, 8);
    memcpy(&w.high, octets + 8, 8);
    w.middle = w.low >> 32 | w.high << 32;
    return w;
}

/* The start state: the key in b, the IV in s with ones after it (the last bit of Grain-128a a zero), and 256 clocks with the output fed back. */
static inline __attribute__((always_inline)) void grain_start(grain *g, int a, const uint8_t *key, const uint8_t *iv)
{
    uint8_t linear[16];
    memcpy(linear, iv, 12);
    memset(linear + 12, 0xff, 4);
    if (a)
        linear[15] = 0x7f;
    g->s = window_of(linear);
    g->b = window_of(key);
    for (int i = 0; i < 8; i++) {
        uint32_t z = (uint32_t)grain_output(g, a), l = (uint32_t)grain_linear(g), n = (uint32_t)grain_nonlinear(g, a);
        window_up(&g->s, l ^ z);
        window_up(&g->b, n ^ z);
    }
}

/* Covers octets in place, four at a time; the engine is left right after them. */
static inline __attribute__((always_inline)) void grain_cover(grain *g, int a, uint8_t *octets, size_t size)
{
    grain here = *g;
    while (size >= 4) {
        uint32_t x;
        memcpy(&x, octets, 4);
        x ^= grain_word(&here, a);
        memcpy(octets, &x, 4);
        octets += 4;
        size -= 4;
    }
    if (size) {
        uint32_t z = grain_some(&here, a, 8 * (unsigned)size);
        for (; size; size--, z >>= 8)
            *octets++ ^= (uint8_t)z;
    }
    *g = here;
}

/* Moves forward and back by octets. A step back is one clock: each needs the bit that the one before it found. */
static inline __attribute__((always_inline)) void grain_forward(grain *g, int a, uint32_t octets)
{
    grain here = *g;
    for (; octets >= 4; octets -= 4)
        grain_word(&here, a);
    if (octets)
        grain_some(&here, a, 8 * octets);
    *g = here;
}

static inline __attribute__((always_inline)) void window_down(window *w)
{
    w->high = w->high << 1 | w->low >> 63;
    w->low = w->low << 1;
    w->middle = w->low >> 32 | w->high << 32;
}

static inline __attribute__((always_inline)) void grain_backward(grain *state, int a, uint32_t octets)
{
    grain here = *state, *g = &here;
    for (uint64_t n = 8 * (uint64_t)octets; n; n--) {
        uint64_t last_s = g->s.high >> 63, last_b = g->b.high >> 63;
        window_down(&g->s);
        window_down(&g->b);
        g->s.low |= (grain_linear(g) ^ last_s) & 1;
        g->b.low |= (grain_nonlinear(g, a) ^ last_b) & 1;
    }
    *state = here;
}

#undef S
#undef B
#endif
