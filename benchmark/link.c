/* The link by hand, over Grain-128 32 clocks at a time and a strip: open and send, pair and receive, with the same checks and refusals. */
#include <string.h>

#include "grain.h"
#include "work.h"

#define CEILING 16777216u

typedef struct {
    grain engine;
    uint32_t session, place, allowance;
} sending;

typedef struct {
    grain engine;
    uint8_t key[16], label[8];
    uint32_t session, place, allowance;
    int present;
} receiver;

static void put4(uint8_t *at, uint32_t x)
{
    memcpy(at, &x, 4);
}

static uint32_t get4(const uint8_t *at)
{
    uint32_t x;
    memcpy(&x, at, 4);
    return x;
}

static void load(grain *engine, const uint8_t *key, const uint8_t *label, uint32_t session)
{
    uint8_t iv[12];
    iv[0] = label[0];
    put4(iv + 1, session);
    memcpy(iv + 5, label + 1, 7);
    grain_start(engine, 0, key, iv);
}

static uint32_t pairing_refusal(size_t key_size, size_t label_size, uint32_t allowance)
{
    return key_size != 16 ? 1 : label_size != 8 ? 2 : allowance == 0 || allowance > CEILING ? 4 : 0;
}

static uint32_t open(sending *s, uint8_t *memory, size_t memory_size, const uint8_t *key, size_t key_size, const uint8_t *label,
                     size_t label_size, uint32_t allowance)
{
    uint32_t refusal = pairing_refusal(key_size, label_size, allowance);
    if (refusal)
        return refusal;
    uint32_t session = hand_strip_read(memory, memory_size);
    if (hand_strip_raise(memory, memory_size))
        return 10;
    load(&s->engine, key, label, session);
    s->session = session;
    s->place = 0;
    s->allowance = allowance;
    return 0;
}

/* Writes a frame and gives its size, or gives 0 and leaves the refusal. */
static size_t send(sending *s, const uint8_t *plain, size_t size, uint8_t *out, size_t room, uint32_t *refusal)
{
    *refusal = size == 0 || size > 1024 ? 5 : room < 10 + size ? 7 : s->place + (uint32_t)size > s->allowance ? 11 : 0;
    if (*refusal)
        return 0;
    memcpy(out + 10, plain, size);
    grain_cover(&s->engine, 0, out + 10, size);
    put4(out, s->session);
    put4(out + 4, s->place);
    out[8] = (uint8_t)size;
    out[9] = (uint8_t)(size >> 8);
    s->place += (uint32_t)size;
    return 10 + size;
}

size_t hand_send(const uint8_t *key, size_t key_size, const uint8_t *label, size_t label_size, uint8_t *memory, size_t memory_size,
                 const uint8_t *plain, size_t plain_size, size_t piece, uint8_t *out, size_t room)
{
    sending s;
    uint32_t refusal;
    size_t written = 0;
    if (open(&s, memory, memory_size, key, key_size, label, label_size, CEILING))
        return 0;
    if (piece == 0)
        piece = 1;
    while (plain_size) {
        size_t size = plain_size < piece ? plain_size : piece;
        size_t frame = send(&s, plain, size, out + written, room - written, &refusal);
        if (refusal)
            return written;
        written += frame;
        plain += size;
        plain_size -= size;
    }
    return written;
}

static uint32_t pair(receiver *r, const uint8_t *key, size_t key_size, const uint8_t *label, size_t label_size, uint32_t allowance)
{
    uint32_t refusal = pairing_refusal(key_size, label_size, allowance);
    if (refusal)
        return refusal;
    memcpy(r->key, key, 16);
    memcpy(r->label, label, 8);
    r->allowance = allowance;
    r->present = 0;
    r->place = 0;
    return 0;
}

static size_t receive(receiver *r, const uint8_t *frame, size_t size, uint8_t *out, size_t room, uint32_t *refusal)
{
    *refusal = 6;
    if (size < 10)
        return 0;
    uint32_t session = get4(frame), place = get4(frame + 4), length = frame[8] | (uint32_t)frame[9] << 8;
    if (length == 0 || length > 1024 || size != 10 + length)
        return 0;
    *refusal = (uint64_t)place + length > r->allowance ? 11 : room < length ? 7 : 0;
    if (*refusal)
        return 0;
    if (!r->present || r->session != session) {
        load(&r->engine, r->key, r->label, session);
        r->session = session;
        r->present = 1;
        r->place = 0;
    }
    if (place >= r->place)
        grain_forward(&r->engine, 0, place - r->place);
    else
        grain_backward(&r->engine, 0, r->place - place);
    memcpy(out, frame + 10, length);
    grain_cover(&r->engine, 0, out, length);
    r->place = place + length;
    return length;
}

size_t hand_receive(const uint8_t *key, size_t key_size, const uint8_t *label, size_t label_size,
                    const uint8_t *frames, size_t frames_size, size_t piece, uint8_t *out, size_t room)
{
    receiver r;
    uint32_t refusal;
    size_t written = 0, whole = (piece < 1024 ? piece : 1024) + 10;
    if (pair(&r, key, key_size, label, label_size, CEILING))
        return 0;
    while (frames_size) {
        size_t size = frames_size < whole ? frames_size : whole;
        size_t plain = receive(&r, frames, size, out + written, room - written, &refusal);
        if (refusal)
            return written;
        written += plain;
        frames += size;
        frames_size -= size;
    }
    return written;
}
