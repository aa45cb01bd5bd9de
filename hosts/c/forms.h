/* For the test programs: both devices' forms, as the library reads and writes them, beside a reader of our own and what
 * we know of writers. These are written from docs/STATE-FORMAT.md alone. */
#ifndef FORMS_H
#define FORMS_H

#include <serialpost.h>
#include <string.h>

/* ---- Our own reader */

#define REASON(number) (0x10000u + (number))

static uint64_t number_at(const uint8_t *form, size_t place, size_t bytes)
{
    uint64_t number = 0;
    for (size_t i = bytes; i > 0; i--)
        number = number << 8 | form[place + i - 1];
    return number;
}

/* How many bytes may wait, by what register 15 is. */
static uint32_t size_by(uint8_t size_register)
{
    return (63 + 4 * (uint32_t)size_register) % 1024 + 1;
}

/* Version 2 has neither FCR nor the register of the size. */
static uint32_t own_serial_reader(const uint8_t *form, size_t length, void *saved, uint8_t *waiting)
{
    if (length < 2)
        return REASON(1);
    uint64_t version = number_at(form, 0, 2);
    if (version != 2 && version != 3)
        return REASON(3);
    size_t start = version == 2 ? 13 : 15;
    if (length < start)
        return REASON(1);
    uint8_t fcr = version == 2 ? 0 : form[11], size_register = version == 2 ? 0 : form[12];
    uint64_t n = number_at(form, start - 2, 2);
    if (n > size_by(size_register))
        return REASON(4);
    if (length < start + n)
        return REASON(1);
    if (length > start + n)
        return REASON(2);
    uint8_t *regs = saved;
    memcpy(regs, form + 2, 9);
    regs[9] = fcr;
    memset(regs + 10, 0, 5);
    regs[15] = size_register;
    for (uint64_t i = 0; i < n; i++)
        waiting[i] = form[start + i];
    return (uint32_t)n;
}

static uint32_t own_clock_reader(const uint8_t *form, size_t length, void *saved, uint8_t *waiting)
{
    (void)waiting;
    if (length < 2)
        return REASON(1);
    if (number_at(form, 0, 2) != 1)
        return REASON(3);
    if (length < 26)
        return REASON(1);
    if (length > 26)
        return REASON(2);
    struct serialpost_clock *clock = saved;
    clock->load = (uint32_t)number_at(form, 2, 4);
    clock->match = (uint32_t)number_at(form, 6, 4);
    clock->mask = (uint32_t)number_at(form, 10, 4);
    clock->raw_status = (uint32_t)number_at(form, 14, 4);
    uint64_t offset = number_at(form, 18, 8);
    clock->offset_low = (uint32_t)offset;
    clock->offset_high = (uint32_t)(offset >> 32);
    clock->spare[0] = clock->spare[1] = 0;
    return 0;
}

/* What a writer answers: how many bytes the form has, or why there is none. */

static uint32_t own_serial_size(const void *saved, size_t count)
{
    const uint8_t *regs = saved;
    if (count > size_by(regs[15]))
        return REASON(4);
    for (size_t i = 10; i < 15; i++) /* the spare ones */
        if (regs[i] != 0)
            return REASON(6);
    return 15 + (uint32_t)count;
}

static uint32_t own_clock_size(const void *saved, size_t count)
{
    (void)count;
    const struct serialpost_clock *clock = saved;
    return clock->spare[0] != 0 || clock->spare[1] != 0 ? REASON(6) : 26;
}

/* A form that is read, in the version that is written: where it is older, the same state. Answers how long it is. */

static size_t serial_as_written(const uint8_t *form, size_t length, uint8_t *written)
{
    static const uint8_t usual[] = { 0, 0 }; /* nothing is remembered of FCR, the size is 64 */
    memcpy(written, form, length);
    if (form[0] == 3)
        return length;
    written[0] = 3;
    memcpy(written + 11, usual, sizeof usual);
    memcpy(written + 13, form + 11, length - 11);
    return length + sizeof usual;
}

static size_t clock_as_written(const uint8_t *form, size_t length, uint8_t *written)
{
    memcpy(written, form, length);
    return length;
}

/* ---- The library, as serialpost_raw.h has it: the parts of a saved port may lie apart */

#define WAITING SERIALPOST_SERIAL_PLACES

static bool is_refused(uint32_t word)
{
    return (word & SERIALPOST_WORD_REFUSED) != 0;
}

static uint32_t read_serial(const uint8_t *form, size_t length, void *saved, uint8_t *waiting)
{
    return serialpost5_serial_decode(form, length, saved, waiting);
}

static uint32_t write_serial(const void *saved, const uint8_t *waiting, size_t count, uint8_t *form, size_t length)
{
    return serialpost5_serial_encode(saved, waiting, count, form, length);
}

static uint32_t read_clock(const uint8_t *form, size_t length, void *saved, uint8_t *waiting)
{
    (void)waiting;
    return serialpost5_clock_decode(form, length, saved);
}

static uint32_t write_clock(const void *saved, const uint8_t *waiting, size_t count, uint8_t *form, size_t length)
{
    (void)waiting, (void)count;
    return serialpost5_clock_encode(saved, form, length);
}

/* A device's forms. What is saved are `saved_size` bytes and, of a serial port, those that wait. */
struct device {
    const char *name;
    size_t saved_size;
    uint32_t (*read)(const uint8_t *form, size_t length, void *saved, uint8_t *waiting);
    uint32_t (*own_reader)(const uint8_t *form, size_t length, void *saved, uint8_t *waiting);
    uint32_t (*write)(const void *saved, const uint8_t *waiting, size_t count, uint8_t *form, size_t length);
    uint32_t (*own_size)(const void *saved, size_t count);
    size_t (*as_written)(const uint8_t *form, size_t length, uint8_t *written);
};

static const struct device serial_port = {
    "serial", 16, read_serial, own_serial_reader, write_serial, own_serial_size, serial_as_written,
};
static const struct device a_clock = {
    "clock", sizeof(struct serialpost_clock), read_clock, own_clock_reader, write_clock, own_clock_size, clock_as_written,
};

#endif
