/* The work that is timed, twice: as exported by the static library of the crate `speed` (speed_...), and as written by hand in C (hand_...).
   Both sides take the same arguments and must give the same answers and the same octets. A slice is a pointer and then a length. */
#ifndef WORK_H
#define WORK_H

#include <stddef.h>
#include <stdint.h>

/* Covers octets in place. Engines: 0 Grain-128 and 1 Grain-128a at stride 32, 2 and 3 the same at stride 1, any other Sprout.
   0, or the number of the refusal. */
uint32_t speed_cover(uint32_t cipher, const uint8_t *key, size_t key_size, const uint8_t *iv, size_t iv_size, uint8_t *octets, size_t size);
uint32_t hand_cover(uint32_t cipher, const uint8_t *key, size_t key_size, const uint8_t *iv, size_t iv_size, uint8_t *octets, size_t size);

/* Opens a session of Grain-128 at stride 32 on a strip and sends a plain in frames of `piece` octets. How many octets of `out` are frames. */
size_t speed_send(const uint8_t *key, size_t key_size, const uint8_t *label, size_t label_size, uint8_t *memory, size_t memory_size,
                  const uint8_t *plain, size_t plain_size, size_t piece, uint8_t *out, size_t room);
size_t hand_send(const uint8_t *key, size_t key_size, const uint8_t *label, size_t label_size, uint8_t *memory, size_t memory_size,
                 const uint8_t *plain, size_t plain_size, size_t piece, uint8_t *out, size_t room);

/* Pairs a receiver of Grain-128 at stride 32 and receives frames of `piece` octets of payload each. How many octets of plain were written. */
size_t speed_receive(const uint8_t *key, size_t key_size, const uint8_t *label, size_t label_size,
                     const uint8_t *frames, size_t frames_size, size_t piece, uint8_t *out, size_t room);
size_t hand_receive(const uint8_t *key, size_t key_size, const uint8_t *label, size_t label_size,
                    const uint8_t *frames, size_t frames_size, size_t piece, uint8_t *out, size_t room);

/* The mark of a store, and a raise of it: 0, or 10 where no raise is left. */
uint32_t speed_strip_read(uint8_t *memory, size_t size);
uint32_t hand_strip_read(uint8_t *memory, size_t size);
uint32_t speed_strip_raise(uint8_t *memory, size_t size);
uint32_t hand_strip_raise(uint8_t *memory, size_t size);
uint32_t speed_column_read(uint32_t *memory, size_t size);
uint32_t hand_column_read(uint32_t *memory, size_t size);
uint32_t speed_column_raise(uint32_t *memory, size_t size);
uint32_t hand_column_raise(uint32_t *memory, size_t size);

#endif
