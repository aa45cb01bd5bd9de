/*
 * Serialpost: the proved functions themselves, as libserialpost.a has them. For C and C++ serialpost.h is the page to
 * read: it has a typed call for each of these and says what it does. This page is for the bindings of other languages.
 *
 * The names carry the version of the interface. A host that was compiled for another version asks for names that this
 * library does not have, so it does not link: a call never meets arguments or memory of another shape in silence.
 *
 * An answer of 32 bits is a word with the layout below; a bit that a call has no use for is 0. Of the numbers, a
 * reply or a byte to send has 8 bits. Bits 0x2000000 to 0x8000000 are spare. `saved` and `waiting` are the parts of a
 * saved port.
 */
#ifndef SERIALPOST_RAW_H
#define SERIALPOST_RAW_H

#include <stdbool.h>
#include <stdint.h>

#ifdef __cplusplus
extern "C" {
#endif

enum {
    SERIALPOST_WORD_NUMBER = 0xffff,      /* a reply, a byte to send, how many bytes; of a refused form the reason */
    SERIALPOST_WORD_REFUSED = 0x10000,    /* refused: a size with which no port is made, an input because the port is
                                           * full, a restore of too many bytes, an invalid access of the clock, a form */
    SERIALPOST_WORD_SENDS = 0x20000,      /* the number is a byte to send */
    SERIALPOST_WORD_REACHABLE = 0x40000,  /* a run comes to the restored state */
    SERIALPOST_WORD_DATA_READ = 0x80000,  /* RBR was read, from an empty buffer too */
    SERIALPOST_WORD_DELIVERED = 0x100000, /* a byte that waited left with the reply */
    SERIALPOST_WORD_NONE_LEFT = 0x200000, /* RBR was read, and no byte waits now */
    SERIALPOST_WORD_LOOPED = 0x400000,    /* in loopback: the byte written waits */
    SERIALPOST_WORD_DROPPED = 0x800000,   /* in loopback: there was no room for it */
    SERIALPOST_WORD_FLUSHED = 0x1000000,  /* FCR emptied the input buffer: the number is how many bytes were thrown away */
    SERIALPOST_WORD_RAISE = 0x10000000    /* one raise: from here on stands how many there are */
};

struct serialpost_clock;
struct serialpost_serial_counters;
struct serialpost_clock_counters;

uint32_t serialpost5_version(void);

uint32_t serialpost5_serial_init(uint8_t regs[16], uint32_t pos[4], uint32_t size);
uint32_t serialpost5_serial_read(uint8_t regs[16], uint32_t pos[4], const uint8_t ring[1024], uint8_t offset);
uint32_t serialpost5_serial_write(uint8_t regs[16], uint32_t pos[4], uint8_t ring[1024], uint8_t offset, uint8_t value);
uint32_t serialpost5_serial_input(uint8_t regs[16], uint32_t pos[4], uint8_t ring[1024], const uint8_t *input,
                                  uint64_t length);
uint32_t serialpost5_serial_size(const uint8_t regs[16]);
uint32_t serialpost5_serial_room(const uint8_t regs[16], const uint32_t pos[4]);
bool serialpost5_serial_line(const uint8_t regs[16], const uint32_t pos[4]);
bool serialpost5_serial_play(uint8_t regs[16], uint32_t pos[4], uint8_t ring[1024], const uint8_t *ops,
                             uint64_t ops_length, const uint8_t *inputs, uint64_t inputs_length, uint32_t *answers,
                             uint64_t answers_length);
uint32_t serialpost5_serial_save(const uint8_t regs[16], const uint32_t pos[4], const uint8_t ring[1024],
                                 uint8_t saved[16], uint8_t waiting[1024]);
uint32_t serialpost5_serial_restore(uint8_t regs[16], uint32_t pos[4], uint8_t ring[1024], const uint8_t saved[16],
                                    const uint8_t *waiting, uint64_t length);
uint32_t serialpost5_serial_encode(const uint8_t saved[16], const uint8_t *waiting, uint64_t waiting_length, uint8_t *form,
                                   uint64_t form_length);
uint32_t serialpost5_serial_decode(const uint8_t *form, uint64_t length, uint8_t saved[16], uint8_t waiting[1024]);

void serialpost5_clock_init(struct serialpost_clock *clock);
uint32_t serialpost5_clock_read(const struct serialpost_clock *clock, uint16_t offset, uint64_t time, uint8_t bytes[4]);
uint32_t serialpost5_clock_write(struct serialpost_clock *clock, uint16_t offset, uint64_t time, const uint8_t bytes[4]);
void serialpost5_clock_save(const struct serialpost_clock *clock, struct serialpost_clock *saved);
uint32_t serialpost5_clock_restore(struct serialpost_clock *clock, const struct serialpost_clock *saved);
uint32_t serialpost5_clock_encode(const struct serialpost_clock *saved, uint8_t *form, uint64_t length);
uint32_t serialpost5_clock_decode(const uint8_t *form, uint64_t length, struct serialpost_clock *saved);

void serialpost5_serial_counters_init(struct serialpost_serial_counters *counters);
void serialpost5_serial_count(struct serialpost_serial_counters *counters, uint32_t answer);
void serialpost5_serial_lost(struct serialpost_serial_counters *counters);
void serialpost5_clock_counters_init(struct serialpost_clock_counters *counters);
void serialpost5_clock_count_read(struct serialpost_clock_counters *counters, uint32_t answer);
void serialpost5_clock_count_write(struct serialpost_clock_counters *counters, uint32_t answer);

uint8_t serialpost5_i8042_read(uint8_t offset);
bool serialpost5_i8042_write(uint8_t offset, uint8_t value);

#ifdef __cplusplus
}
#endif

#endif
