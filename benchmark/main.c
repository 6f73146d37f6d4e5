/* Times the exported functions of the crate `speed` beside the same work written by hand in C, in one run and on the same data.
   Before anything is timed, answers and every octet written of both sides are compared, and a difference ends the run with an error.
   Each row is timed in repetitions that alternate between the two sides; the best of each side is printed. Buffers are filled and touched before
   the first repetition and are not cleared between repetitions. An argument picks the rows whose names contain it. */
#include <stdio.h>
#include <stdlib.h>
#include <string.h>
#include <time.h>

#include "work.h"

enum { REPETITIONS = 25, LARGEST = 1 << 20, STRIP = 4096, COLUMN = 8192 };

static const uint8_t key[16] = "sixteen octets..";
static const uint8_t iv[12] = "twelve o12..";
static const uint8_t label[8] = "tilt 12.";

static uint8_t plain[LARGEST];
static uint8_t buffer[2][LARGEST];
static uint8_t frames[2][LARGEST + 10 * (LARGEST / 16) + (11 << 16)];
static uint8_t opened[2][LARGEST];
static uint8_t strip[2][STRIP];
static uint32_t column[2][COLUMN];
static const char *wanted = "";

/* One side of the work: 0 ours, 1 by hand. */
static uint32_t cover(int side, uint32_t cipher, uint8_t *octets, size_t size)
{
    int sprout = cipher > 3;
    return (side ? hand_cover : speed_cover)(cipher, key, sprout ? 10 : 16, iv, sprout ? 9 : 12, octets, size);
}

static size_t send(int side, size_t size, size_t piece)
{
    return (side ? hand_send : speed_send)(key, 16, label, 8, strip[side], STRIP, plain, size, piece, frames[side], sizeof frames[side]);
}

static size_t receive(int side, const uint8_t *from, size_t size, size_t piece)
{
    return (side ? hand_receive : speed_receive)(key, 16, label, 8, from, size, piece, opened[side], sizeof opened[side]);
}

static void fail(const char *what, unsigned long at)
{
    fprintf(stderr, "benchmark: the two sides differ: %s, at %lu\n", what, at);
    exit(1);
}

static void same(const char *what, unsigned long at, const void *x, const void *y, size_t size)
{
    if (memcmp(x, y, size))
        fail(what, at);
}

static void same_number(const char *what, unsigned long at, unsigned long x, unsigned long y)
{
    if (x != y)
        fail(what, at);
}

static void fresh(void)
{
    memset(strip, 0xff, sizeof strip);
    memset(column, 0xff, sizeof column);
}

/* A strip whose last octet alone has ones, and a column whose last pair alone is blank. */
static void nearly_full(void)
{
    memset(strip, 0, sizeof strip);
    for (int side = 0; side < 2; side++) {
        strip[side][STRIP - 1] = 0xff;
        for (uint32_t i = 0; i < COLUMN - 2; i += 2) {
            column[side][i] = i / 2 + 1;
            column[side][i + 1] = ~(i / 2 + 1);
        }
        column[side][COLUMN - 2] = column[side][COLUMN - 1] = UINT32_MAX;
    }
}

static size_t put_frame(uint8_t *at, uint32_t session, uint32_t place, uint8_t payload)
{
    const uint8_t frame[11] = { (uint8_t)session,      (uint8_t)(session >> 8), (uint8_t)(session >> 16), (uint8_t)(session >> 24),
                                (uint8_t)place,        (uint8_t)(place >> 8),   (uint8_t)(place >> 16),   (uint8_t)(place >> 24),
                                1,                     0,                       payload };
    memcpy(at, frame, 11);
    return 11;
}

/* Frames of one octet, by turns at `distance - 1` and at 0, so that every second one is late by `distance`. */
static size_t put_late(uint8_t *at, uint32_t distance, int turns)
{
    size_t size = 0;
    for (int i = 0; i < turns; i++) {
        size += put_frame(at + size, 0, distance - 1, 0x5a);
        size += put_frame(at + size, 0, 0, 0xa5);
    }
    return size;
}

/* Frames of one octet at `distance`, each of another session than the one before. */
static size_t put_ahead(uint8_t *at, uint32_t distance, int turns)
{
    size_t size = 0;
    for (int i = 0; i < turns; i++)
        size += put_frame(at + size, (uint32_t)i & 1, distance, 0x5a);
    return size;
}

static void compare(void)
{
    static const size_t pieces[] = { 1, 2, 3, 5, 16, 255, 256, 1000, 1024 };
    for (uint32_t cipher = 0; cipher < 5; cipher++) {
        for (size_t size = 0; size < 300; size++) {
            memcpy(buffer[0], plain, size + 8);
            memcpy(buffer[1], plain, size + 8);
            same_number("cover answers", size, cover(0, cipher, buffer[0], size), cover(1, cipher, buffer[1], size));
            same("cover", size, buffer[0], buffer[1], size + 8);
        }
        memcpy(buffer[0], plain, LARGEST);
        memcpy(buffer[1], plain, LARGEST);
        same_number("cover answers", cipher, cover(0, cipher, buffer[0], LARGEST), 0);
        same_number("cover answers", cipher, cover(1, cipher, buffer[1], LARGEST), 0);
        same("cover", cipher, buffer[0], buffer[1], LARGEST);
        if (!memcmp(buffer[0], plain, LARGEST))
            fail("nothing covered", cipher);
        for (size_t size = 8; size < 20; size++) {
            uint8_t other[20] = "abcdefghijklmnopqrs";
            same_number("refusals of keys", size, speed_cover(cipher, key, size, iv, 12, buffer[0], 1), hand_cover(cipher, key, size, iv, 12, buffer[1], 1));
            other[8] = (uint8_t)(size << 4);
            other[0] = (uint8_t)size;
            same_number("refusals of IVs", size, speed_cover(cipher, key, cipher > 3 ? 10 : 16, other, size, buffer[0], 1),
                        hand_cover(cipher, key, cipher > 3 ? 10 : 16, other, size, buffer[1], 1));
            same("refusals", size, buffer[0], buffer[1], 1);
        }
    }
    fresh();
    for (size_t i = 0; i < sizeof pieces / sizeof *pieces; i++) {
        size_t octets = pieces[i] < 16 ? 1 << 16 : LARGEST;
        if (octets / pieces[i] * (pieces[i] + 10) + 1034 > sizeof frames[0])
            octets = 1 << 16;
        memset(frames, 0, sizeof frames);
        size_t size = send(0, octets, pieces[i]);
        same_number("send answers", pieces[i], size, send(1, octets, pieces[i]));
        same_number("frames sent", pieces[i], size, octets + 10 * ((octets + pieces[i] - 1) / pieces[i]));
        same("frames", pieces[i], frames[0], frames[1], sizeof frames[0]);
        same("strips", pieces[i], strip[0], strip[1], STRIP);
        memset(opened, 0, sizeof opened);
        same_number("receive answers", pieces[i], receive(0, frames[0], size, pieces[i]), octets);
        same_number("receive answers", pieces[i], receive(1, frames[0], size, pieces[i]), octets);
        same("plains", pieces[i], opened[0], opened[1], sizeof opened[0]);
        same("plains sent", pieces[i], opened[0], plain, octets);
    }
    for (uint32_t distance = 1; distance <= 1000000; distance = distance * 3 + 1) {
        size_t size = put_late(frames[0], distance, 2);
        size += put_ahead(frames[0] + size, distance, 3);
        same_number("late answers", distance, receive(0, frames[0], size, 1), 7);
        same_number("late answers", distance, receive(1, frames[0], size, 1), 7);
        same("late plains", distance, opened[0], opened[1], 7);
    }
    for (int full = 0; full < 2; full++) {
        if (full)
            nearly_full();
        else
            fresh();
        for (unsigned i = 0; i < 20; i++) {
            same_number("strip reads", i, speed_strip_read(strip[0], STRIP), hand_strip_read(strip[1], STRIP));
            same_number("strip raises", i, speed_strip_raise(strip[0], STRIP), hand_strip_raise(strip[1], STRIP));
            same("strips", i, strip[0], strip[1], STRIP);
            same_number("column reads", i, speed_column_read(column[0], COLUMN), hand_column_read(column[1], COLUMN));
            same_number("column raises", i, speed_column_raise(column[0], COLUMN), hand_column_raise(column[1], COLUMN));
            same("columns", i, column[0], column[1], sizeof column[0]);
        }
    }
}

static double seconds(void)
{
    struct timespec t;
    clock_gettime(CLOCK_MONOTONIC, &t);
    return (double)t.tv_sec + 1e-9 * (double)t.tv_nsec;
}

/* The work of a row: `size` and `more` are the row's own. */
typedef void (*work)(int side, size_t size, size_t more);

static volatile uint32_t sink;

static void cover_row(int side, size_t size, size_t cipher)
{
    sink = cover(side, (uint32_t)cipher, buffer[side], size);
}

static void send_row(int side, size_t size, size_t piece)
{
    strip[side][0] = 0xff;
    sink = (uint32_t)send(side, size, piece);
}

static void receive_row(int side, size_t size, size_t piece)
{
    sink = (uint32_t)receive(side, frames[side], size, piece);
}

static void strip_read_row(int side, size_t size, size_t times)
{
    for (; times; times--)
        sink = (side ? hand_strip_read : speed_strip_read)(strip[side], size);
}

static void strip_raise_row(int side, size_t size, size_t times)
{
    for (; times; times--) {
        strip[side][STRIP - 1] = 0xff;
        sink = (side ? hand_strip_raise : speed_strip_raise)(strip[side], size);
    }
}

static void column_read_row(int side, size_t size, size_t times)
{
    for (; times; times--)
        sink = (side ? hand_column_read : speed_column_read)(column[side], size);
}

static void column_raise_row(int side, size_t size, size_t times)
{
    for (; times; times--) {
        column[side][COLUMN - 2] = column[side][COLUMN - 1] = UINT32_MAX;
        sink = (side ? hand_column_raise : speed_column_raise)(column[side], size);
    }
}

static void open_row(int side, size_t size, size_t times)
{
    strip[side][0] = 0xff;
    for (; times; times--) {
        strip[side][size - 1] = 0xff;
        sink = (uint32_t)(side ? hand_send : speed_send)(key, 16, label, 8, strip[side], size, plain, 1, 1, frames[side], 11);
    }
}

static void pair_row(int side, size_t size, size_t times)
{
    for (; times; times--)
        sink = (uint32_t)receive(side, frames[side], size, 1);
}

/* Times a row and prints it; `units` is how many things of the kind `unit` the work does. */
static void row(const char *name, const char *unit, double units, work f, size_t size, size_t more)
{
    double best[2] = { 1e9, 1e9 };
    if (!strstr(name, wanted))
        return;
    for (int i = 0; i < REPETITIONS; i++)
        for (int side = 0; side < 2; side++) {
            double start = seconds();
            f(side, size, more);
            double took = seconds() - start;
            if (took < best[side])
                best[side] = took;
        }
    printf("%-44s %12.2f %12.2f  ns/%-7s %6.2f\n", name, 1e9 * best[0] / units, 1e9 * best[1] / units, unit, best[1] / best[0]);
}

int main(int count, char **words)
{
    static const char *ciphers[] = { "Grain-128 stride 32", "Grain-128a stride 32", "Grain-128 stride 1", "Grain-128a stride 1", "Sprout stride 1" };
    static const size_t pieces[] = { 1, 16, 256, 1024 };
    static const uint32_t distances[] = { 1, 1000, 100000, 1000000 };
    char name[80];
    uint64_t x = 88172645463325252u;
    for (size_t i = 0; i < LARGEST; i++) {
        x ^= x << 13;
        x ^= x >> 7;
        x ^= x << 17;
        plain[i] = (uint8_t)x;
    }
    memset(frames, 1, sizeof frames);
    memset(opened, 1, sizeof opened);
    compare();
    puts("answers and octets of both sides agree");
    if (count > 1)
        wanted = words[1];
    printf("best of %d repetitions, alternating; buffers touched before, not cleared between; ratio = C time / ours: 1.00 is equal, above it ours is faster\n\n",
           (int)REPETITIONS);
    printf("%-44s %12s %12s  %-10s %6s\n", "work", "ours", "C", "unit", "ratio");
    for (size_t cipher = 0; cipher < 5; cipher++)
        for (size_t size = cipher < 2 ? 1 << 16 : 1 << 13; size <= (cipher < 2 ? (size_t)LARGEST : 1 << 17); size <<= 4) {
            snprintf(name, sizeof name, "cover, %s, %zu octets", ciphers[cipher], size);
            row(name, "octet", (double)size, cover_row, size, cipher);
        }
    fresh();
    for (int i = 0; i < 4; i++)
        for (size_t size = 1 << 12; size <= 1 << 16; size <<= 4) {
            snprintf(name, sizeof name, "send, frames of %zu, %zu octets", pieces[i], size);
            row(name, "octet", (double)size, send_row, size, pieces[i]);
        }
    for (int i = 0; i < 4; i++)
        for (size_t size = 1 << 12; size <= 1 << 16; size <<= 4) {
            size_t sent = send(0, size, pieces[i]);
            memcpy(frames[1], frames[0], sent);
            snprintf(name, sizeof name, "receive, frames of %zu, %zu octets", pieces[i], size);
            row(name, "octet", (double)size, receive_row, sent, pieces[i]);
        }
    for (int i = 0; i < 4; i++) {
        int turns = distances[i] < 1000 ? 1000 : distances[i] < 100000 ? 20 : 1;
        size_t size = put_ahead(frames[0], distances[i], turns);
        memcpy(frames[1], frames[0], size);
        snprintf(name, sizeof name, "frame ahead by %u in another session", distances[i]);
        row(name, "frame", turns, receive_row, size, 1);
        size = put_late(frames[0], distances[i], turns);
        memcpy(frames[1], frames[0], size);
        snprintf(name, sizeof name, "frame late by %u, and one back ahead", distances[i]);
        row(name, "frame", turns, receive_row, size, 1);
    }
    fresh();
    row("open on a fresh strip of 4096, send 1 octet", "call", 200, open_row, STRIP, 200);
    row("open on a fresh strip of 128, send 1 octet", "call", 200, open_row, 128, 200);
    size_t size = put_frame(frames[0], 0, 0, 1);
    memcpy(frames[1], frames[0], size);
    row("pair, receive 1 octet", "call", 200, pair_row, size, 200);
    row("strip of 4096 octets, read, fresh", "call", 100, strip_read_row, STRIP, 100);
    row("column of 8192 words, read, fresh", "call", 20, column_read_row, COLUMN, 20);
    nearly_full();
    row("strip of 4096 octets, read, nearly full", "call", 100, strip_read_row, STRIP, 100);
    row("strip of 2048 octets, read, full", "call", 100, strip_read_row, STRIP / 2, 100);
    row("strip of 4096 octets, raise, nearly full", "call", 100, strip_raise_row, STRIP, 100);
    row("column of 8192 words, read, nearly full", "call", 20, column_read_row, COLUMN, 20);
    row("column of 4096 words, read, full", "call", 20, column_read_row, COLUMN / 2, 20);
    row("column of 8192 words, raise, nearly full", "call", 20, column_raise_row, COLUMN, 20);
    return 0;
}
