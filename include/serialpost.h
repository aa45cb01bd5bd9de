/*
 * Serialpost: a 16550 serial port, a PL031 clock, and the corner of an i8042 that resets the machine.
 * Link libserialpost.a. Each call hands your struct to a proved function (serialpost_raw.h) and takes its answer
 * apart. It is inlined.
 *
 * A device's state is a struct that you own. No call allocates, waits, does I/O or keeps anything elsewhere, and
 * none needs another before it: any bytes are some state, any argument is answered. A call that refuses says so
 * in its answer and changes nothing. What a call wants done (a byte sent, an interrupt raised, a reset) is in
 * its answer, and you do it before the next access.
 *
 * A host whose interrupt input is edge-triggered, or an event file descriptor, signals once for each raise. One whose
 * interrupt controller is level-triggered (Arm's GIC, a PC's IO-APIC in level mode) sets the line to what
 * serialpost_serial_line answers after each call, and needs no raises. The line never rises without a raise, a call
 * that raises leaves it high, and it falls when nothing that is enabled is pending.
 * A raise tells that a kind of interrupt has become active, not how many bytes wait. With IER 01 two bytes come and
 * raise once; one of them is read; a third comes and raises nothing, for the line is high still. A driver that reads
 * one byte for each interrupt needs the level.
 *
 * Spare bytes and words are 0 in a fresh device. Every call keeps them as they are: leave them alone.
 *
 * C cannot check these, so they are yours to keep:
 * - a pointer is not null, not even where the length beside it is 0, and is aligned for its type;
 * - an array with a length beside it has that many elements; a length has 64 bits on every processor;
 * - what one call is lent does not overlap: two structs, or a struct and an array, lie apart;
 * - nothing else touches what a call is lent while it runs. Two states may be used at the same time.
 */
#ifndef SERIALPOST_H
#define SERIALPOST_H

#include "serialpost_raw.h"

/* The version of all that is declared here: it changes with the calls, the structs and the answers. The names of the
 * library's functions carry it, so that what was compiled with the header of another version does not link. Where the
 * library answers another number all the same, make no other call. */
#define SERIALPOST_VERSION 5

static inline uint32_t serialpost_version(void)
{
    return serialpost5_version();
}

/* ---- Answers. `raises` is how often to raise the interrupt. Today a read and the clock raise nothing. `word`, where
 * there is one, is the answer as one number, for counting. */

/* Of a read at the serial port. */
struct serialpost_read {
    uint8_t reply;
    uint32_t raises;
    bool data_read; /* RBR was read, from an empty buffer too */
    bool delivered; /* a byte that waited left with the reply */
    bool none_left; /* RBR was read, and no byte waits now */
    uint32_t word;
};

/* Of a write. If `sends`, send `byte`, which is 0 else, and raise after that. */
struct serialpost_written {
    bool sends;
    uint8_t byte;
    uint32_t raises;
    bool looped;        /* in loopback: the byte was accepted, and waits to be read */
    bool dropped;       /* in loopback: there was no room for it */
    bool flushed;       /* the guest emptied the input buffer by FCR, also where no byte waited */
    uint32_t discarded; /* how many waiting bytes it threw away by that; 0 where not flushed */
    uint32_t word;
};

/* Of bytes from your side. */
struct serialpost_input {
    uint32_t taken;
    bool full;
    uint32_t raises;
    uint32_t word;
};

/* Of a read or a write at the clock. */
struct serialpost_clock_access {
    bool refused;
    uint32_t raises;
    uint32_t word;
};

/* Of a restore. `reachable`: a run from a fresh device could have come to this state. */
struct serialpost_restored {
    bool refused;
    bool reachable;
    uint32_t raises;
};

/* Why a form is refused. Where several of these are true, docs/STATE-FORMAT.md says which is answered. 0x10005
 * was one, and is not used again. */
enum serialpost_reason {
    SERIALPOST_NOT_REFUSED = 0,
    SERIALPOST_TOO_SHORT = 0x10001,       /* the form ends too early */
    SERIALPOST_TRAILING = 0x10002,        /* bytes follow it */
    SERIALPOST_UNKNOWN_VERSION = 0x10003, /* its version is not known */
    SERIALPOST_TOO_MANY = 0x10004,        /* more bytes wait than the port's size */
    SERIALPOST_SPARE = 0x10006            /* a spare byte or word is not 0: it has no form */
};

/* Of the writing of a form. `length`: how many bytes it has, 0 where it is refused. */
struct serialpost_encoded {
    uint32_t length;
    enum serialpost_reason reason;
};

/* The words of serialpost_raw.h as these answers. The first three are for a run that you play. */

static inline struct serialpost_read serialpost_read_of(uint32_t word)
{
    struct serialpost_read answer = { (uint8_t)word,
                                      word / SERIALPOST_WORD_RAISE,
                                      (word & SERIALPOST_WORD_DATA_READ) != 0,
                                      (word & SERIALPOST_WORD_DELIVERED) != 0,
                                      (word & SERIALPOST_WORD_NONE_LEFT) != 0,
                                      word };
    return answer;
}

static inline struct serialpost_written serialpost_written_of(uint32_t word)
{
    bool sends = (word & SERIALPOST_WORD_SENDS) != 0, flushed = (word & SERIALPOST_WORD_FLUSHED) != 0;
    struct serialpost_written answer = { sends,
                                         (uint8_t)(sends ? word : 0),
                                         word / SERIALPOST_WORD_RAISE,
                                         (word & SERIALPOST_WORD_LOOPED) != 0,
                                         (word & SERIALPOST_WORD_DROPPED) != 0,
                                         flushed,
                                         flushed ? word & SERIALPOST_WORD_NUMBER : 0,
                                         word };
    return answer;
}

static inline struct serialpost_input serialpost_input_of(uint32_t word)
{
    struct serialpost_input answer = { word & SERIALPOST_WORD_NUMBER, (word & SERIALPOST_WORD_REFUSED) != 0,
                                       word / SERIALPOST_WORD_RAISE, word };
    return answer;
}

static inline struct serialpost_clock_access serialpost_clock_access_of(uint32_t word)
{
    struct serialpost_clock_access answer = { (word & SERIALPOST_WORD_REFUSED) != 0, word / SERIALPOST_WORD_RAISE, word };
    return answer;
}

static inline struct serialpost_restored serialpost_restored_of(uint32_t word)
{
    struct serialpost_restored answer = { (word & SERIALPOST_WORD_REFUSED) != 0, (word & SERIALPOST_WORD_REACHABLE) != 0,
                                          word / SERIALPOST_WORD_RAISE };
    return answer;
}

static inline enum serialpost_reason serialpost_reason_of(uint32_t word)
{
    return word & SERIALPOST_WORD_REFUSED ? (enum serialpost_reason)word : SERIALPOST_NOT_REFUSED;
}

static inline struct serialpost_encoded serialpost_encoded_of(uint32_t word)
{
    struct serialpost_encoded answer = { word & SERIALPOST_WORD_REFUSED ? 0 : word, serialpost_reason_of(word) };
    return answer;
}

/* ---- Serial port: a 16550 in whose input buffer as many bytes can wait as its size says: 16, 32, 64, 128, 256, 512 or
 * 1,024. The size is chosen when the port is made, and no access changes it. */

#define SERIALPOST_SERIAL_USUAL 64    /* the size where none is chosen */
#define SERIALPOST_SERIAL_PLACES 1024 /* the largest size: no more bytes wait in any port */

/* Offsets of the registers. RBR is what offset 0 reads and THR what it writes, IIR and FCR are so at offset 2; while LCR
 * 0x80 is set, offsets 0 and 1 are the divisor's two bytes. */
enum {
    SERIALPOST_RBR = 0,
    SERIALPOST_THR = 0,
    SERIALPOST_IER = 1,
    SERIALPOST_IIR = 2,
    SERIALPOST_FCR = 2,
    SERIALPOST_LCR = 3,
    SERIALPOST_MCR = 4,
    SERIALPOST_LSR = 5,
    SERIALPOST_MSR = 6,
    SERIALPOST_SCR = 7
};

/* regs: each register at its offset, the divisor's low byte at 0 and its high byte at 8, what is remembered of FCR at 9; 10
 * to 14 are spare, and 15 tells the size. Of IIR only bit 0x02 has a meaning here, the transmitter's pending interrupt. A
 * call stores in it a bit for each active kind, so that vm-superio, given a saved port, raises what is due.
 * Register 9: bits 0x01, 0x08 and 0xc0 of the value that the guest wrote last. Nothing reads them: they have no effect,
 * and are saved and restored. Before FCR was remembered it was spare, and 0.
 * Register 15: 0 stands for the size 64, each one more for four more bytes, and it goes round from 1,024 to 4: 240 stands
 * for 1,024, 244 for 16. Before there were sizes it was spare, and 0: memory from then is a port of 64.
 * pos: where the first waiting byte lies in the ring, counted modulo 1,024, and how many wait; a number above 1,024
 * counts as 1,024. The last two are spare. No call lets more bytes wait than the size; where memory has more, no byte is
 * taken until fewer than the size wait. */
struct serialpost_serial {
    uint8_t regs[16];
    uint32_t pos[4];
    uint8_t ring[SERIALPOST_SERIAL_PLACES];
};

/* Makes a fresh port of any memory, of the usual size. The ring may hold anything. Refuses nothing. */
static inline void serialpost_serial_init(struct serialpost_serial *port)
{
    serialpost5_serial_init(port->regs, port->pos, SERIALPOST_SERIAL_USUAL);
}

/* Makes a fresh port of this size, and answers whether it was made. Refused, with false: a number that is none of the
 * seven sizes. */
static inline bool serialpost_serial_init_sized(struct serialpost_serial *port, uint32_t size)
{
    return !(serialpost5_serial_init(port->regs, port->pos, size) & SERIALPOST_WORD_REFUSED);
}

/* Answers how many bytes can wait: of a port that was made, the size it was made with. Refuses nothing. */
static inline uint32_t serialpost_serial_size(const struct serialpost_serial *port)
{
    return serialpost5_serial_size(port->regs);
}

/* The guest reads at `offset`. A read where there is no register, at 8 and up, does nothing: the reply is 0. */
static inline struct serialpost_read serialpost_serial_read(struct serialpost_serial *port, uint8_t offset)
{
    return serialpost_read_of(serialpost5_serial_read(port->regs, port->pos, port->ring, offset));
}

/* The guest writes `value` at `offset`. A write at 5, 6, 8 and up, where nothing can be written, does nothing. A byte for
 * the ring in loopback while as many wait as its size says is dropped, and the transmitter, empty again, may raise.
 * A write of FCR with bit 0x02 empties the input buffer, whether or not bit 0x01 is set with it, and answers `flushed`: the
 * bytes that waited are thrown away, LSR 0x01 is clear, and the line falls if nothing else that is enabled is pending. The
 * bytes are gone, and the guest meant it; how many they were is in `discarded`, so that a host can tell an operator that
 * a phrase was typed before the guest listened. */
static inline struct serialpost_written serialpost_serial_write(struct serialpost_serial *port, uint8_t offset, uint8_t value)
{
    return serialpost_written_of(serialpost5_serial_write(port->regs, port->pos, port->ring, offset, value));
}

/* `length` bytes come from your side of the line. In loopback none are taken. Else as many as there is room for are, from
 * the first on, and any bytes while as many wait as its size says are refused, which answers `full`.
 * Keep what is not taken. Offer it again once the guest has read at SERIALPOST_RBR or emptied the buffer by SERIALPOST_FCR,
 * which make room, or has written SERIALPOST_MCR, which ends a loopback: no raise tells you. */
static inline struct serialpost_input serialpost_serial_input(struct serialpost_serial *port, const uint8_t *input,
                                                              uint64_t length)
{
    return serialpost_input_of(serialpost5_serial_input(port->regs, port->pos, port->ring, input, length));
}

/* Answers how many more bytes can wait: 0 to its size. Refuses nothing. */
static inline uint32_t serialpost_serial_room(const struct serialpost_serial *port)
{
    return serialpost5_serial_room(port->regs, port->pos);
}

/* Answers whether the interrupt line is high: something that is enabled is pending. Refuses nothing. */
static inline bool serialpost_serial_line(const struct serialpost_serial *port)
{
    return serialpost5_serial_line(port->regs, port->pos);
}

/* A whole run in one call: `ops` has three bytes for each operation, its kind first.
 *   0 offset any      a read
 *   1 offset value    a write
 *   2 low high        an input of low + 256 * high bytes; those of all inputs lie in `inputs` one behind another
 *   3 any any         the room
 * Answers true and puts a word into `answers` for each: serialpost_read_of, _written_of and _input_of take it apart;
 * the room is the word itself. Refused, with false: what is no such run (another kind, an operation cut short, bytes
 * of the inputs missing or left over), and a run with more operations than answers. */
static inline bool serialpost_serial_play(struct serialpost_serial *port, const uint8_t *ops, uint64_t ops_length,
                                          const uint8_t *inputs, uint64_t inputs_length, uint32_t *answers,
                                          uint64_t answers_length)
{
    return serialpost5_serial_play(port->regs, port->pos, port->ring, ops, ops_length, inputs, inputs_length, answers,
                                   answers_length);
}

/* ---- A serial port saved, to be kept or sent elsewhere: its registers, with what is remembered of FCR and the size, the
 * bytes that wait, in their order, and how many these are. hosts/c/migrate.c moves a port from one host to another. */

struct serialpost_serial_saved {
    uint8_t regs[16];
    uint8_t waiting[SERIALPOST_SERIAL_PLACES];
    uint32_t count;
};

/* Saves a port. Of `waiting` only the first bytes are written. Refuses nothing, and the port stays. */
static inline void serialpost_serial_save(const struct serialpost_serial *port, struct serialpost_serial_saved *saved)
{
    saved->count = serialpost5_serial_save(port->regs, port->pos, port->ring, saved->regs, saved->waiting);
}

/* Whether more bytes are said to wait than the struct has. No port has room for them, and no call is lent them. */
static inline bool serialpost_serial_overfull(const struct serialpost_serial_saved *saved)
{
    return saved->count > SERIALPOST_SERIAL_PLACES;
}

/* Restores a port into any memory, with the size that was saved; the memory's spare positions stay, so make new memory a
 * fresh port before. Raises once for each kind that is enabled and pending, since the line of a new host may never have
 * seen it. A state that is not reachable is restored all the same, and whether to go on is yours to say: vm-superio comes
 * to such states, and so may a port that was restored from one. No interrupt that was due is lost with them. Refused:
 * more bytes than the saved size. */
static inline struct serialpost_restored serialpost_serial_restore(struct serialpost_serial *port,
                                                                   const struct serialpost_serial_saved *saved)
{
    if (serialpost_serial_overfull(saved))
        return serialpost_restored_of(SERIALPOST_WORD_REFUSED);
    return serialpost_restored_of(
        serialpost5_serial_restore(port->regs, port->pos, port->ring, saved->regs, saved->waiting, saved->count));
}

/* The form of a saved port has so many bytes at most. */
#define SERIALPOST_SERIAL_FORM_MOST 1039

/* Puts a saved port of any size into bytes, in the form that docs/STATE-FORMAT.md tells, version 3: 15 and one for each
 * that waits. Writes the first bytes of `form`, and the others stay. Where `form` is shorter nothing is written, and the
 * answer is the same. Refused: more waiting bytes than the saved size, and a spare byte that is not 0. */
static inline struct serialpost_encoded serialpost_serial_encode(const struct serialpost_serial_saved *saved, uint8_t *form,
                                                                 uint64_t length)
{
    if (serialpost_serial_overfull(saved))
        return serialpost_encoded_of(SERIALPOST_TOO_MANY);
    return serialpost_encoded_of(serialpost5_serial_encode(saved->regs, saved->waiting, saved->count, form, length));
}

/* Reads a form, of which `length` bytes are all. Where they are no form, answers why, and `saved` stays. Version 2, which
 * was written before there were sizes, is read too: as a port of 64 of whose FCR nothing is remembered. */
static inline enum serialpost_reason serialpost_serial_decode(const uint8_t *form, uint64_t length,
                                                              struct serialpost_serial_saved *saved)
{
    uint32_t word = serialpost5_serial_decode(form, length, saved->regs, saved->waiting);
    if (!(word & SERIALPOST_WORD_REFUSED))
        saved->count = word;
    return serialpost_reason_of(word);
}

/* ---- Clock: a PL031. Registers are four bytes, the lowest first. */

/* Offsets of the registers; the identification registers lie from 0xfe0 to 0xfff. */
enum {
    SERIALPOST_RTCDR = 0x000,
    SERIALPOST_RTCMR = 0x004,
    SERIALPOST_RTCLR = 0x008,
    SERIALPOST_RTCCR = 0x00c,
    SERIALPOST_RTCIMSC = 0x010,
    SERIALPOST_RTCRIS = 0x014,
    SERIALPOST_RTCMIS = 0x018,
    SERIALPOST_RTCICR = 0x01c
};

/* The offset is how many seconds the clock is ahead of `time`, signed, 64 bits in two halves. */
struct serialpost_clock {
    uint32_t load;
    uint32_t match;
    uint32_t mask;
    uint32_t raw_status;
    uint32_t offset_low;
    uint32_t offset_high;
    uint32_t spare[2];
};

/* Makes a fresh clock of any memory. Refuses nothing. */
static inline void serialpost_clock_init(struct serialpost_clock *clock)
{
    serialpost5_clock_init(clock);
}

/* The guest reads the register at `offset` while your clock says `time` seconds, which count modulo 2^32. Puts the
 * value into `bytes`. An offset with no register to read is refused, and `bytes` stay. */
static inline struct serialpost_clock_access serialpost_clock_read(const struct serialpost_clock *clock, uint16_t offset,
                                                                   uint64_t time, uint8_t bytes[4])
{
    return serialpost_clock_access_of(serialpost5_clock_read(clock, offset, time, bytes));
}

/* The guest writes `bytes` to the register at `offset` while your clock says `time` seconds. An offset with no
 * register to write is refused. */
static inline struct serialpost_clock_access serialpost_clock_write(struct serialpost_clock *clock, uint16_t offset,
                                                                    uint64_t time, const uint8_t bytes[4])
{
    return serialpost_clock_access_of(serialpost5_clock_write(clock, offset, time, bytes));
}

/* Saves a clock. Refuses nothing, and the clock stays. */
static inline void serialpost_clock_save(const struct serialpost_clock *clock, struct serialpost_clock *saved)
{
    serialpost5_clock_save(clock, saved);
}

/* Restores a clock into any memory, also one whose state is not reachable. Refuses nothing. */
static inline struct serialpost_restored serialpost_clock_restore(struct serialpost_clock *clock,
                                                                  const struct serialpost_clock *saved)
{
    return serialpost_restored_of(serialpost5_clock_restore(clock, saved));
}

/* The form of a saved clock has so many bytes. */
#define SERIALPOST_CLOCK_FORM_SIZE 26

/* Puts a saved clock into bytes, in the form that docs/STATE-FORMAT.md tells. Writes the first bytes of `form`, and
 * the others stay. Where `form` is shorter nothing is written, and the answer is the same. Refused: a spare word that
 * is not 0. */
static inline struct serialpost_encoded serialpost_clock_encode(const struct serialpost_clock *saved, uint8_t *form,
                                                                uint64_t length)
{
    return serialpost_encoded_of(serialpost5_clock_encode(saved, form, length));
}

/* Reads a form, of which `length` bytes are all. Where they are no form, answers why, and `saved` stays. */
static inline enum serialpost_reason serialpost_clock_decode(const uint8_t *form, uint64_t length,
                                                             struct serialpost_clock *saved)
{
    return serialpost_reason_of(serialpost5_clock_decode(form, length, saved));
}

/* ---- Counters, for those who run the machine. To count is your choice: hand the `word` of an answer to a count as it
 * comes, or call none of these, and nothing is spent on it. Any memory is some counters. None of these calls refuses
 * anything. A counter stops at 2^64 - 1. */

struct serialpost_serial_counters {
    uint64_t data_reads; /* reads of RBR, those of an empty buffer too */
    uint64_t sent;       /* bytes that you were to send, the lost ones among them */
    uint64_t lost;       /* bytes of these that your side did not take, as you said */
    uint64_t none_left;  /* reads of RBR after which no byte waited */
};

/* Sets all of them to 0. */
static inline void serialpost_serial_counters_init(struct serialpost_serial_counters *counters)
{
    serialpost5_serial_counters_init(counters);
}

/* Counts what an answer of the port tells: the word of a read or a write, or each word that serialpost_serial_play
 * answers. That of an input has nothing to count, nor has that of a write of FCR: what the guest threw away is counted
 * nowhere but in `discarded`. */
static inline void serialpost_serial_count(struct serialpost_serial_counters *counters, uint32_t word)
{
    serialpost5_serial_count(counters, word);
}

/* A byte could not be sent: your side of the line did not take it. Its write is counted as any other, so that it is in
 * `sent` too. */
static inline void serialpost_serial_lost(struct serialpost_serial_counters *counters)
{
    serialpost5_serial_lost(counters);
}

struct serialpost_clock_counters {
    uint64_t invalid_reads;  /* reads that were refused */
    uint64_t invalid_writes; /* writes that were refused */
};

/* Sets both to 0. */
static inline void serialpost_clock_counters_init(struct serialpost_clock_counters *counters)
{
    serialpost5_clock_counters_init(counters);
}

/* Counts what the answer to a read tells. */
static inline void serialpost_clock_count_read(struct serialpost_clock_counters *counters, uint32_t word)
{
    serialpost5_clock_count_read(counters, word);
}

/* Counts what the answer to a write tells. */
static inline void serialpost_clock_count_write(struct serialpost_clock_counters *counters, uint32_t word)
{
    serialpost5_clock_count_write(counters, word);
}

/* ---- Reset controller: of an i8042, the command that resets the machine. It has no state. */

/* The guest reads at `offset`, counted from port 0x60. Answers 0. Refuses nothing. */
static inline uint8_t serialpost_i8042_read(uint8_t offset)
{
    return serialpost5_i8042_read(offset);
}

/* The guest writes `value` at `offset`. Answers whether the machine is to be reset. Any other write than 0xfe at
 * offset 4 does nothing: false. */
static inline bool serialpost_i8042_write(uint8_t offset, uint8_t value)
{
    return serialpost5_i8042_write(offset, value);
}

#endif
