/* Covering by hand: Grain-128 and Grain-128a 32 clocks at a time and one clock at a time, Sprout one clock at a time. */
#include "grain.h"
#include "work.h"

/* One clock at a time: each register is 128 bits in two words, moved down by one bit a clock. */
typedef struct {
    uint64_t s0, s1, b0, b1;
} serial;

#define S(i) ((i) < 64 ? g->s0 >> ((i) & 63) : g->s1 >> ((i) & 63))
#define B(i) ((i) < 64 ? g->b0 >> ((i) & 63) : g->b1 >> ((i) & 63))

static inline __attribute__((always_inline)) uint64_t serial_clock(serial *g, int a, int feed)
{
    uint64_t z = B(2) ^ B(15) ^ B(36) ^ B(45) ^ B(64) ^ B(73) ^ B(89) ^ S(93) ^ (S(13) & S(20)) ^ (B(95) & S(42)) ^ (S(60) & S(79))
               ^ (B(12) & (S(8) ^ (B(95) & (a ? S(94) : S(95)))));
    uint64_t l = S(0) ^ S(7) ^ S(38) ^ S(70) ^ S(81) ^ S(96);
    uint64_t n = S(0) ^ B(0) ^ B(26) ^ B(56) ^ B(91) ^ B(96) ^ (B(3) & B(67)) ^ (B(11) & B(13)) ^ (B(17) & B(18)) ^ (B(27) & B(59))
               ^ (B(40) & B(48)) ^ (B(61) & B(65)) ^ (B(68) & B(84));
    if (a)
        n ^= (B(88) & B(92) & B(93) & B(95)) ^ (B(22) & B(24) & B(25)) ^ (B(70) & B(78) & B(82));
    if (feed) {
        l ^= z;
        n ^= z;
    }
    g->s0 = g->s0 >> 1 | g->s1 << 63;
    g->s1 = g->s1 >> 1 | l << 63;
    g->b0 = g->b0 >> 1 | g->b1 << 63;
    g->b1 = g->b1 >> 1 | n << 63;
    return z & 1;
}

#undef S
#undef B

static inline __attribute__((always_inline)) void serial_work(int a, const uint8_t *key, const uint8_t *iv, uint8_t *octets, size_t size)
{
    serial g;
    uint8_t linear[16];
    memcpy(linear, iv, 12);
    memset(linear + 12, 0xff, 4);
    if (a)
        linear[15] = 0x7f;
    memcpy(&g.s0, linear, 8);
    memcpy(&g.s1, linear + 8, 8);
    memcpy(&g.b0, key, 8);
    memcpy(&g.b1, key + 8, 8);
    for (int i = 0; i < 256; i++)
        serial_clock(&g, a, 1);
    for (size_t i = 0; i < size; i++) {
        uint64_t octet = 0;
        for (int j = 0; j < 8; j++)
            octet |= serial_clock(&g, a, 0) << j;
        octets[i] ^= (uint8_t)octet;
    }
}

/* Sprout: registers of 40 bits in a word each, the key in two words, and a counter. */
typedef struct {
    uint64_t s, b, key[2];
    unsigned counter;
} small;

#define S(i) (g->s >> (i))
#define B(i) (g->b >> (i))

static inline __attribute__((always_inline)) uint64_t small_clock(small *g, int early, int feed)
{
    uint64_t z = B(1) ^ B(6) ^ B(15) ^ B(17) ^ B(23) ^ B(28) ^ B(34) ^ S(30) ^ (S(8) & S(10)) ^ (S(32) & S(17)) ^ (S(19) & S(23))
               ^ (B(4) & (S(6) ^ (S(32) & B(38))));
    uint64_t l = S(0) ^ S(5) ^ S(15) ^ S(20) ^ S(25) ^ S(34);
    uint64_t k = g->key[g->counter >> 6] >> (g->counter & 63);
    if (!early)
        k &= S(4) ^ S(21) ^ S(37) ^ B(9) ^ B(20) ^ B(29);
    uint64_t n = k ^ S(0) ^ (g->counter >> 4) ^ B(0) ^ B(13) ^ B(19) ^ B(35) ^ B(39) ^ (B(2) & B(25)) ^ (B(3) & B(5)) ^ (B(7) & B(8))
               ^ (B(14) & B(21)) ^ (B(16) & B(18)) ^ (B(22) & B(24)) ^ (B(26) & B(32)) ^ (B(33) & B(36) & B(37) & B(38))
               ^ (B(10) & B(11) & B(12)) ^ (B(27) & B(30) & B(31));
    if (feed) {
        l ^= z;
        n ^= z;
    }
    g->s = g->s >> 1 | (l & 1) << 39;
    g->b = g->b >> 1 | (n & 1) << 39;
    g->counter = g->counter == 79 ? 0 : g->counter + 1;
    return z & 1;
}

#undef S
#undef B

static void small_work(const uint8_t *key, const uint8_t *iv, uint8_t *octets, size_t size)
{
    const uint64_t forty = (UINT64_C(1) << 40) - 1;
    small g = { 0 };
    uint64_t high = 0;
    memcpy(&g.b, iv, 8);
    memcpy(&high, iv + 5, 4);
    g.b &= forty;
    g.s = (high & 0x3fffffff) | UINT64_C(0x1ff) << 30;
    memcpy(&g.key[0], key, 8);
    memcpy(&g.key[1], key + 8, 2);
    for (int i = 0; i < 80; i++)
        small_clock(&g, 1, 1);
    for (int i = 0; i < 240; i++)
        small_clock(&g, 0, 1);
    for (size_t i = 0; i < size; i++) {
        uint64_t octet = 0;
        for (int j = 0; j < 8; j++)
            octet |= small_clock(&g, 0, 0) << j;
        octets[i] ^= (uint8_t)octet;
    }
}

uint32_t hand_cover(uint32_t cipher, const uint8_t *key, size_t key_size, const uint8_t *iv, size_t iv_size, uint8_t *octets, size_t size)
{
    grain g;
    int sprout = cipher > 3, a = cipher == 1 || cipher == 3;
    if (key_size != (sprout ? 10u : 16u))
        return 1;
    if (iv_size != (sprout ? 9u : 12u))
        return 2;
    if (sprout ? iv[8] >> 6 : a && (iv[0] & 1))
        return 3;
    switch (cipher) {
    case 0:
        grain_start(&g, 0, key, iv);
        grain_cover(&g, 0, octets, size);
        break;
    case 1:
        grain_start(&g, 1, key, iv);
        grain_cover(&g, 1, octets, size);
        break;
    case 2:
        serial_work(0, key, iv, octets, size);
        break;
    case 3:
        serial_work(1, key, iv, octets, size);
        break;
    default:
        small_work(key, iv, octets, size);
    }
    return 0;
}
