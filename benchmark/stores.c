/* The two mark stores by hand. */
#include <string.h>

#include "work.h"

/* How many zero bits the first 4,096 octets have: the ones of eight octets at a time, summed octet by octet for as long as no sum passes 255. */
uint32_t hand_strip_read(uint8_t *memory, size_t size)
{
    size_t used = size < 4096 ? size : 4096, at = 0;
    uint32_t ones = 0;
    while (used - at >= 128) {
        uint64_t sums[2] = { 0, 0 };
        for (int i = 0; i < 16; i++) {
            uint64_t x;
            memcpy(&x, memory + at + 8 * i, 8);
            x -= x >> 1 & UINT64_C(0x5555555555555555);
            x = (x & UINT64_C(0x3333333333333333)) + (x >> 2 & UINT64_C(0x3333333333333333));
            sums[i & 1] += (x + (x >> 4)) & UINT64_C(0x0f0f0f0f0f0f0f0f);
        }
        uint64_t pairs = 0;
        for (int i = 0; i < 2; i++)
            pairs += (sums[i] & UINT64_C(0x00ff00ff00ff00ff)) + (sums[i] >> 8 & UINT64_C(0x00ff00ff00ff00ff));
        ones += (uint32_t)(pairs * UINT64_C(0x0001000100010001) >> 48);
        at += 128;
    }
    for (; at < used; at++)
        ones += (uint32_t)__builtin_popcount(memory[at]);
    return (uint32_t)(8 * used) - ones;
}

/* Clears the lowest one bit of the first octet that has any. */
uint32_t hand_strip_raise(uint8_t *memory, size_t size)
{
    size_t used = size < 4096 ? size : 4096, at = 0;
    while (used - at >= 32) {
        uint64_t x[4];
        memcpy(x, memory + at, 32);
        if (x[0] | x[1] | x[2] | x[3])
            break;
        at += 32;
    }
    for (; at < used; at++)
        if (memory[at]) {
            memory[at] &= (uint8_t)(memory[at] - 1);
            return 0;
        }
    return 10;
}

/* The largest first word of a pair whose second word is its complement. */
uint32_t hand_column_read(uint32_t *memory, size_t size)
{
    size_t used = (size < 8192 ? size : 8192) & ~(size_t)1;
    uint32_t mark = 0;
    for (size_t i = 0; i < used; i += 2) {
        uint32_t x = memory[i] == ~memory[i + 1] ? memory[i] : 0;
        mark = x > mark ? x : mark;
    }
    return mark;
}

uint32_t hand_column_raise(uint32_t *memory, size_t size)
{
    size_t used = (size < 8192 ? size : 8192) & ~(size_t)1, first = used;
    uint32_t mark = hand_column_read(memory, size);
    for (size_t i = 0; i < used; i += 2)
        if ((memory[i] & memory[i + 1]) == UINT32_MAX) {
            first = i;
            break;
        }
    if (first == used || mark == UINT32_MAX)
        return 10;
    memory[first] = mark + 1;
    memory[first + 1] = ~(mark + 1);
    return 0;
}
