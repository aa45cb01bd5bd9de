/* Ports of every size, as a host uses them, and numbers that are no size. */
#include "expect.h"
#include <serialpost.h>
#include <string.h>

#define COUNT(array) (sizeof(array) / sizeof *(array))
#define SIZE 15 /* the register that tells it */

static const uint32_t sizes[] = { 16, 32, 64, 128, 256, 512, 1024 };

/* One byte more than any port has room for. */
static uint8_t typed[SERIALPOST_SERIAL_PLACES + 1];

static struct serialpost_serial port_of(uint32_t size)
{
    struct serialpost_serial port;
    memset(&port, 0xa5, sizeof port);
    EXPECT(serialpost_serial_init_sized(&port, size));
    return port;
}

static bool takes(struct serialpost_serial *port, const uint8_t *bytes, uint32_t length, uint32_t taken)
{
    struct serialpost_input answer = serialpost_serial_input(port, bytes, length);
    return answer.taken == taken && !answer.full;
}

static struct serialpost_serial full_port(uint32_t size)
{
    struct serialpost_serial port = port_of(size);
    EXPECT(takes(&port, typed, size + 1, size));
    return port;
}

static struct serialpost_serial_saved saved_from(const struct serialpost_serial *port)
{
    struct serialpost_serial_saved saved;
    memset(&saved, 0xa5, sizeof saved);
    serialpost_serial_save(port, &saved);
    return saved;
}

static void expect_read(struct serialpost_serial *port, const uint8_t *bytes, uint32_t length)
{
    for (uint32_t i = 0; i < length; i++) {
        struct serialpost_read answer = serialpost_serial_read(port, SERIALPOST_RBR);
        EXPECT(answer.delivered && answer.reply == bytes[i]);
    }
}

/* ---- Each size */

static void a_port_has_the_size_that_it_is_made_with(uint32_t size)
{
    struct serialpost_serial port = port_of(size), usual = port;
    EXPECT(serialpost_serial_size(&port) == size && serialpost_serial_room(&port) == size);
    serialpost_serial_init(&usual);
    EXPECT(serialpost_serial_size(&usual) == SERIALPOST_SERIAL_USUAL);
    EXPECT((memcmp(&port, &usual, sizeof port) == 0) == (size == SERIALPOST_SERIAL_USUAL));
    usual.regs[SIZE] = port.regs[SIZE];
    EXPECT(memcmp(&port, &usual, sizeof port) == 0);
}

static void it_takes_as_many_bytes_as_its_size(uint32_t size)
{
    struct serialpost_serial port = full_port(size), before = port;
    EXPECT(serialpost_serial_room(&port) == 0);
    struct serialpost_input answer = serialpost_serial_input(&port, typed, 1);
    EXPECT(answer.full && answer.taken == 0 && answer.raises == 0 && memcmp(&port, &before, sizeof port) == 0);
    expect_read(&port, typed, 1);
    EXPECT(takes(&port, typed + size, 1, 1) && serialpost_serial_room(&port) == 0);
    expect_read(&port, typed + 1, size);
    EXPECT(serialpost_serial_room(&port) == size && serialpost_serial_size(&port) == size);
}

/* The bytes go round the ring several times. */
static void no_byte_is_lost(uint32_t size)
{
    struct serialpost_serial port = port_of(size);
    uint32_t left = size / 3;
    EXPECT(takes(&port, typed, left, left));
    for (uint32_t round = 0; round * (size - left) < 5 * SERIALPOST_SERIAL_PLACES; round++) {
        EXPECT(takes(&port, typed + left, size + 1 - left, size - left));
        expect_read(&port, typed, size - left);
        expect_read(&port, typed + size - left, left);
        EXPECT(takes(&port, typed, left, left));
    }
}

static void in_the_loop_as_many_wait(uint32_t size)
{
    struct serialpost_serial port = port_of(size);
    serialpost_serial_write(&port, SERIALPOST_MCR, 0x10);
    for (uint32_t i = 0; i < size; i++)
        EXPECT(serialpost_serial_write(&port, SERIALPOST_THR, typed[i]).looped);
    struct serialpost_written answer = serialpost_serial_write(&port, SERIALPOST_THR, 0xff);
    EXPECT(answer.dropped && !answer.looped);
    expect_read(&port, typed, size);
}

/* Into the memory of a port of another size. */
static void a_size_is_saved_and_restored(uint32_t size)
{
    struct serialpost_serial here = full_port(size), there = port_of(size == 16 ? 1024 : 16);
    struct serialpost_serial_saved saved = saved_from(&here), again;
    EXPECT(saved.count == size && memcmp(saved.waiting, typed, size) == 0);
    struct serialpost_restored answer = serialpost_serial_restore(&there, &saved);
    EXPECT(!answer.refused && answer.reachable && answer.raises == 0);
    EXPECT(serialpost_serial_size(&there) == size && serialpost_serial_room(&there) == 0);
    again = saved_from(&there);
    EXPECT(memcmp(&again, &saved, sizeof saved) == 0);
    expect_read(&there, typed, size);
}

static void more_bytes_than_the_saved_size_are_refused(uint32_t size)
{
    const uint32_t counts[] = { size + 1, 1025, 0x10000 + size, UINT32_MAX };
    struct serialpost_serial port = port_of(1024), saved_port = full_port(size), before;
    EXPECT(takes(&port, typed, 3, 3));
    before = port;
    struct serialpost_serial_saved saved = saved_from(&saved_port);
    for (size_t i = 0; i < COUNT(counts); i++) {
        saved.count = counts[i];
        struct serialpost_restored answer = serialpost_serial_restore(&port, &saved);
        EXPECT(answer.refused && !answer.reachable && answer.raises == 0);
        EXPECT(memcmp(&port, &before, sizeof port) == 0);
    }
}

/* All of them, and then none. */
static void fcr_throws_away_as_many_as_wait(uint32_t size)
{
    const uint32_t discarded[] = { size, 0 };
    struct serialpost_serial port = full_port(size);
    for (size_t i = 0; i < COUNT(discarded); i++) {
        struct serialpost_written answer = serialpost_serial_write(&port, SERIALPOST_FCR, 0x07);
        EXPECT(answer.flushed && answer.discarded == discarded[i] && !answer.sends && answer.raises == 0);
        EXPECT(serialpost_serial_room(&port) == size && serialpost_serial_size(&port) == size);
    }
    EXPECT(takes(&port, typed, size + 1, size));
    expect_read(&port, typed, size);
}

/* A form of an empty port and of a full one: written, read, restored into the memory of a port of another size. */
static void a_port_is_kept_as_bytes(uint32_t size)
{
    struct serialpost_serial ports[] = { port_of(size), full_port(size) };
    for (size_t i = 0; i < COUNT(ports); i++) {
        serialpost_serial_write(&ports[i], SERIALPOST_FCR, 0xc9);
        struct serialpost_serial_saved saved = saved_from(&ports[i]), again = saved_from(&ports[i]);
        uint8_t form[SERIALPOST_SERIAL_FORM_MOST];
        memset(form, 0xa5, sizeof form);
        struct serialpost_encoded answer = serialpost_serial_encode(&saved, form, sizeof form);
        EXPECT(answer.length == 15 + saved.count && answer.reason == SERIALPOST_NOT_REFUSED);
        EXPECT(form[0] == 3 && form[11] == 0xc9 && form[12] == saved.regs[SIZE] && form[13] + 256u * form[14] == saved.count);
        EXPECT(answer.length == sizeof form || form[answer.length] == 0xa5);

        memset(again.regs, 0x5a, sizeof again.regs);
        memset(again.waiting, 0x5a, saved.count);
        EXPECT(serialpost_serial_decode(form, answer.length, &again) == SERIALPOST_NOT_REFUSED);
        EXPECT(memcmp(&again, &saved, sizeof saved) == 0);
        struct serialpost_serial there = port_of(size == 16 ? 1024 : 16);
        EXPECT(serialpost_serial_restore(&there, &again).reachable && serialpost_serial_size(&there) == size);
        EXPECT(serialpost_serial_room(&there) == size - saved.count);
        expect_read(&there, typed, saved.count);

        EXPECT(serialpost_serial_decode(form, answer.length - 1, &again) == SERIALPOST_TOO_SHORT);
        EXPECT(serialpost_serial_decode(form, answer.length + 1, &again) == SERIALPOST_TRAILING);
        EXPECT(memcmp(&again, &saved, sizeof saved) == 0);
    }
}

/* One byte more than the size, in what is to be written and in what is read; and counts beyond all. */
static void more_bytes_than_its_size_have_no_form(uint32_t size)
{
    struct serialpost_serial port = full_port(size);
    struct serialpost_serial_saved saved = saved_from(&port);
    uint8_t form[SERIALPOST_SERIAL_FORM_MOST + 1];
    uint32_t length = serialpost_serial_encode(&saved, form, sizeof form).length;
    form[13] = (uint8_t)(size + 1);
    form[14] = (uint8_t)((size + 1) >> 8);
    for (uint32_t more = 0; more < 2; more++)
        EXPECT(serialpost_serial_decode(form, length + more, &saved) == SERIALPOST_TOO_MANY && saved.count == size);
    const uint32_t counts[] = { size + 1, 1025, 0x10000 + size, UINT32_MAX };
    for (size_t i = 0; i < COUNT(counts); i++) {
        saved.count = counts[i];
        struct serialpost_encoded answer = serialpost_serial_encode(&saved, form, sizeof form);
        EXPECT(answer.length == 0 && answer.reason == SERIALPOST_TOO_MANY);
    }
}

/* ---- Other numbers, and other memory */

static void no_other_number_makes_a_port(void)
{
    static const uint32_t numbers[] = { 0,  1,   4,    8,    15,   17,   31,   33,      48,         60,         63,        65,
                                        96, 127, 1000, 1023, 1025, 1040, 2048, 0x10040, 0x40000040, 0x80000000, UINT32_MAX };
    struct serialpost_serial port = full_port(128), before = port;
    for (size_t i = 0; i < COUNT(numbers); i++)
        EXPECT(!serialpost_serial_init_sized(&port, numbers[i]) && memcmp(&port, &before, sizeof port) == 0);
}

/* A port as it lay in memory, and was saved, before there were sizes. */
static void memory_from_before_is_a_port_of_64(void)
{
    struct serialpost_serial port = { { 0x0c, 0x01, 0x04, 0x03, 0x08, 0x61, 0xb0 }, { 1023, 2, 0, 0 }, { 'b' } };
    port.ring[1023] = 'a';
    struct serialpost_serial_saved saved = { { 0x0c, 0x01, 0x04, 0x03, 0x08, 0x61, 0xb0 }, { 'a', 'b' }, 2 };
    for (int i = 0; i < 2; i++) {
        EXPECT(serialpost_serial_size(&port) == 64 && serialpost_serial_room(&port) == 62);
        expect_read(&port, (const uint8_t *)"ab", 2);
        EXPECT(serialpost_serial_restore(&port, &saved).reachable);
    }
}

static void memory_with_more_bytes_than_its_size_takes_none(void)
{
    struct serialpost_serial port = port_of(1024);
    EXPECT(takes(&port, typed, 100, 100));
    port.regs[SIZE] = 0;
    for (uint32_t waiting = 100; waiting >= 64; waiting--) {
        EXPECT(serialpost_serial_room(&port) == 0 && serialpost_serial_input(&port, typed, 1).full);
        expect_read(&port, typed + 100 - waiting, 1);
    }
    EXPECT(takes(&port, typed + 100, 2, 1));
    expect_read(&port, typed + 37, 64);
}

static void a_size_that_no_port_is_made_with_is_told(void)
{
    struct serialpost_serial port = port_of(64);
    struct serialpost_serial_saved saved = saved_from(&port);
    uint32_t reachable = 0;
    for (unsigned byte = 0; byte < 256; byte++) {
        saved.regs[SIZE] = (uint8_t)byte;
        struct serialpost_restored answer = serialpost_serial_restore(&port, &saved);
        EXPECT(!answer.refused && serialpost_serial_size(&port) == (63 + 4 * byte) % 1024 + 1);
        reachable += answer.reachable;
        uint8_t form[SERIALPOST_SERIAL_FORM_MOST];
        struct serialpost_serial_saved again;
        EXPECT(serialpost_serial_encode(&saved, form, sizeof form).length == 15);
        EXPECT(serialpost_serial_decode(form, 15, &again) == SERIALPOST_NOT_REFUSED && again.regs[SIZE] == byte);
    }
    EXPECT(reachable == COUNT(sizes));
}

int main(void)
{
    for (size_t i = 0; i < sizeof typed; i++)
        typed[i] = (uint8_t)(i * 7 + i / 256);
    for (size_t i = 0; i < COUNT(sizes); i++) {
        a_port_has_the_size_that_it_is_made_with(sizes[i]);
        it_takes_as_many_bytes_as_its_size(sizes[i]);
        no_byte_is_lost(sizes[i]);
        in_the_loop_as_many_wait(sizes[i]);
        a_size_is_saved_and_restored(sizes[i]);
        more_bytes_than_the_saved_size_are_refused(sizes[i]);
        fcr_throws_away_as_many_as_wait(sizes[i]);
        a_port_is_kept_as_bytes(sizes[i]);
        more_bytes_than_its_size_have_no_form(sizes[i]);
    }
    no_other_number_makes_a_port();
    memory_from_before_is_a_port_of_64();
    memory_with_more_bytes_than_its_size_takes_none();
    a_size_that_no_port_is_made_with_is_told();
    return 0;
}
