/* Uses all of serialpost.h as a host would. */
#include "expect.h"
#include <serialpost.h>
#include <string.h>

/* docs/PERFORMANCE.md says what a device takes. */
_Static_assert(sizeof(struct serialpost_serial) == 1056, "a port");
_Static_assert(sizeof(struct serialpost_clock) == 32, "a clock");
_Static_assert(sizeof(struct serialpost_serial_counters) == 32, "a port's counters");
_Static_assert(sizeof(struct serialpost_clock_counters) == 16, "a clock's counters");

/* ---- The serial port as a host uses it */

static uint8_t read_at(struct serialpost_serial *port, uint8_t offset)
{
    struct serialpost_read answer = serialpost_serial_read(port, offset);
    EXPECT(answer.raises == 0);
    return answer.reply;
}

/* A write that sends nothing. Answers its raises. */
static uint32_t write_at(struct serialpost_serial *port, uint8_t offset, uint8_t value)
{
    struct serialpost_written answer = serialpost_serial_write(port, offset, value);
    EXPECT(!answer.sends && answer.byte == 0);
    return answer.raises;
}

static bool sends(struct serialpost_serial *port, uint8_t byte, uint32_t raises)
{
    struct serialpost_written answer = serialpost_serial_write(port, SERIALPOST_THR, byte);
    return answer.sends && answer.byte == byte && answer.raises == raises;
}

static struct serialpost_input type_in(struct serialpost_serial *port, const void *bytes, size_t length)
{
    return serialpost_serial_input(port, bytes, length);
}

static struct serialpost_serial fresh_port(void)
{
    struct serialpost_serial port;
    memset(&port, 0xa5, sizeof port);
    serialpost_serial_init(&port);
    return port;
}

static void a_fresh_port(void)
{
    struct serialpost_serial port = fresh_port();
    static const uint8_t shown[] = { 0x00, 0x00, 0xc1, 0x03, 0x08, 0x60, 0xb0, 0x00, 0x00 };
    for (uint8_t offset = 0; offset < sizeof shown; offset++)
        EXPECT(read_at(&port, offset) == shown[offset]);
    write_at(&port, SERIALPOST_LCR, 0x83);
    EXPECT(read_at(&port, 0) == 0x0c && read_at(&port, 1) == 0x00);
    EXPECT(serialpost_serial_room(&port) == SERIALPOST_SERIAL_USUAL);
    static const uint8_t nothing[6] = { 0 }; /* is remembered of FCR, or spare */
    EXPECT(memcmp(port.regs + 9, nothing, sizeof nothing) == 0 && port.pos[2] == 0 && port.pos[3] == 0);
    EXPECT(serialpost_serial_size(&port) == SERIALPOST_SERIAL_USUAL && port.regs[15] == 0);
}

static void input_is_read_in_order(void)
{
    struct serialpost_serial port = fresh_port();
    write_at(&port, SERIALPOST_IER, 0x01);
    struct serialpost_input answer = type_in(&port, "abc", 3);
    EXPECT(answer.taken == 3 && !answer.full && answer.raises == 1);
    EXPECT(read_at(&port, SERIALPOST_LSR) == 0x61);
    EXPECT(read_at(&port, SERIALPOST_IIR) == 0xc4);
    for (const char *byte = "abc"; *byte; byte++)
        EXPECT(read_at(&port, SERIALPOST_RBR) == *byte);
    EXPECT(read_at(&port, SERIALPOST_LSR) == 0x60);
}

static void output_is_sent(void)
{
    struct serialpost_serial port = fresh_port();
    EXPECT(sends(&port, 'x', 0));
    EXPECT(write_at(&port, SERIALPOST_IER, 0x02) == 1);
    EXPECT(read_at(&port, SERIALPOST_IIR) == 0xc2);
    EXPECT(sends(&port, 0, 1));
    EXPECT(sends(&port, 'y', 0));
    EXPECT(write_at(&port, SERIALPOST_SCR, 'z') == 0);
}

/* The priority, what a read of IIR resets, and the level of the line. */
static void two_kinds_are_told_one_after_the_other(void)
{
    struct serialpost_serial port = fresh_port();
    type_in(&port, "a", 1);
    EXPECT(!serialpost_serial_line(&port) && read_at(&port, SERIALPOST_IIR) == 0xc1);
    EXPECT(write_at(&port, SERIALPOST_IER, 0x03) == 2);
    EXPECT(serialpost_serial_line(&port));
    EXPECT(read_at(&port, SERIALPOST_IIR) == 0xc4 && read_at(&port, SERIALPOST_IIR) == 0xc4);
    EXPECT(read_at(&port, SERIALPOST_RBR) == 'a' && serialpost_serial_line(&port));
    EXPECT(read_at(&port, SERIALPOST_IIR) == 0xc2);
    EXPECT(!serialpost_serial_line(&port) && read_at(&port, SERIALPOST_IIR) == 0xc1);
}

/* What the header tells of a driver that reads one byte for each interrupt. */
static void a_third_byte_holds_the_line_high_and_raises_nothing(void)
{
    struct serialpost_serial port = fresh_port();
    write_at(&port, SERIALPOST_IER, 0x01);
    EXPECT(!serialpost_serial_line(&port));
    EXPECT(type_in(&port, "ab", 2).raises == 1);
    EXPECT(read_at(&port, SERIALPOST_RBR) == 'a');
    EXPECT(type_in(&port, "c", 1).raises == 0 && serialpost_serial_line(&port));
    EXPECT(read_at(&port, SERIALPOST_RBR) == 'b' && serialpost_serial_line(&port));
    EXPECT(read_at(&port, SERIALPOST_RBR) == 'c' && !serialpost_serial_line(&port));
}

static void a_full_port_refuses(void)
{
    struct serialpost_serial port = fresh_port();
    uint8_t many[65] = { 0 };
    EXPECT(type_in(&port, many, 65).taken == 64);
    EXPECT(serialpost_serial_room(&port) == 0);
    EXPECT(!type_in(&port, many, 0).full);
    struct serialpost_input answer = type_in(&port, many, 1);
    EXPECT(answer.full && answer.taken == 0 && answer.raises == 0);
    read_at(&port, SERIALPOST_RBR);
    EXPECT(type_in(&port, many, 2).taken == 1);
}

static void the_loop_returns_what_is_written(void)
{
    struct serialpost_serial port = fresh_port();
    write_at(&port, SERIALPOST_IER, 0x01);
    write_at(&port, SERIALPOST_MCR, 0x10);
    EXPECT(write_at(&port, SERIALPOST_THR, 7) == 1);
    EXPECT(write_at(&port, SERIALPOST_THR, 8) == 0);
    struct serialpost_input answer = type_in(&port, "no", 2);
    EXPECT(answer.taken == 0 && !answer.full && answer.raises == 0);
    EXPECT(read_at(&port, SERIALPOST_RBR) == 7 && read_at(&port, SERIALPOST_RBR) == 8);
    EXPECT(read_at(&port, SERIALPOST_RBR) == 0);
    write_at(&port, SERIALPOST_MCR, 0x13);
    EXPECT(read_at(&port, SERIALPOST_MSR) == 0x30);
}

/* ---- FCR */

#define FCR 9 /* where it is remembered */
#define FCR_KEPT 0xc9

/* Answers how many bytes a write of FCR threw away. */
static uint32_t flushes(struct serialpost_serial *port, uint8_t value)
{
    struct serialpost_written answer = serialpost_serial_write(port, SERIALPOST_FCR, value);
    EXPECT(answer.flushed && !answer.sends && answer.byte == 0 && !answer.looped && !answer.dropped && answer.raises == 0);
    EXPECT(answer.word == (SERIALPOST_WORD_FLUSHED | answer.discarded));
    return answer.discarded;
}

/* A phrase was typed before the guest listened: it is thrown away, and what is typed then is read. */
static void fcr_empties_the_buffer(void)
{
    for (unsigned value = 0; value < 256; value++) {
        if (!(value & 0x02))
            continue;
        struct serialpost_serial port = fresh_port();
        write_at(&port, SERIALPOST_IER, 0x01);
        EXPECT(type_in(&port, "hello", 5).raises == 1 && serialpost_serial_room(&port) == SERIALPOST_SERIAL_USUAL - 5);
        EXPECT(flushes(&port, (uint8_t)value) == 5);
        EXPECT(!serialpost_serial_line(&port) && serialpost_serial_room(&port) == SERIALPOST_SERIAL_USUAL);
        EXPECT(read_at(&port, SERIALPOST_LSR) == 0x60 && read_at(&port, SERIALPOST_IIR) == 0xc1);
        EXPECT(!serialpost_serial_read(&port, SERIALPOST_RBR).delivered);
        EXPECT(type_in(&port, "ok", 2).raises == 1 && serialpost_serial_line(&port));
        EXPECT(read_at(&port, SERIALPOST_RBR) == 'o' && read_at(&port, SERIALPOST_RBR) == 'k');
    }
}

static void an_empty_buffer_is_emptied_and_nothing_thrown_away(void)
{
    struct serialpost_serial port = fresh_port(), before = port;
    EXPECT(flushes(&port, 0x02) == 0 && memcmp(&port, &before, sizeof port) == 0);
    EXPECT(flushes(&port, 0x07) == 0 && port.regs[FCR] == 0x01);
}

static void the_transmitters_interrupt_stays(void)
{
    struct serialpost_serial port = fresh_port();
    type_in(&port, "a", 1);
    EXPECT(write_at(&port, SERIALPOST_IER, 0x03) == 2);
    EXPECT(flushes(&port, 0x07) == 1 && serialpost_serial_line(&port));
    EXPECT(read_at(&port, SERIALPOST_IIR) == 0xc2 && !serialpost_serial_line(&port));
}

/* While the divisor is open, and in loopback: FCR lies where it lies. */
static void fcr_empties_the_buffer_always(void)
{
    struct serialpost_serial port = fresh_port();
    type_in(&port, "ab", 2);
    write_at(&port, SERIALPOST_LCR, 0x83);
    EXPECT(flushes(&port, 0x03) == 2 && read_at(&port, 0) == 0x0c);
    write_at(&port, SERIALPOST_LCR, 0x03);
    write_at(&port, SERIALPOST_MCR, 0x10);
    for (int i = 0; i < SERIALPOST_SERIAL_USUAL; i++)
        EXPECT(serialpost_serial_write(&port, SERIALPOST_THR, 'z').looped);
    EXPECT(flushes(&port, 0x02) == SERIALPOST_SERIAL_USUAL);
    EXPECT(serialpost_serial_write(&port, SERIALPOST_THR, 'y').looped && read_at(&port, SERIALPOST_RBR) == 'y');
}

/* What is remembered changes no answer: the port is the same but for it. */
static void the_other_bits_are_remembered_alone(void)
{
    for (unsigned value = 0; value < 256; value++) {
        struct serialpost_serial port = fresh_port(), other;
        write_at(&port, SERIALPOST_IER, 0x03);
        type_in(&port, "abc", 3);
        if (value & 0x02)
            flushes(&port, 0x02);
        other = port;
        struct serialpost_written answer = serialpost_serial_write(&port, SERIALPOST_FCR, (uint8_t)value);
        EXPECT(answer.word == (value & 0x02 ? SERIALPOST_WORD_FLUSHED : 0) && answer.discarded == 0);
        EXPECT(port.regs[FCR] == (value & FCR_KEPT));
        other.regs[FCR] = port.regs[FCR];
        EXPECT(memcmp(&port, &other, sizeof port) == 0);
        other.regs[FCR] = 0;
        for (int offset = 7; offset >= 0; offset--)
            EXPECT(serialpost_serial_read(&port, (uint8_t)offset).word == serialpost_serial_read(&other, (uint8_t)offset).word);
    }
}

static void a_run_is_the_calls_one_after_another(void)
{
    struct serialpost_serial port = fresh_port(), same = port;
    static const uint8_t ops[] = { 1, 1, 1, 2, 3, 0, 3, 0, 0, 0, 5, 0, 0, 0, 0, 1, 0, 'x', 1, 2, 7 };
    uint32_t answers[7];
    EXPECT(serialpost_serial_play(&port, ops, sizeof ops, (const uint8_t *)"abc", 3, answers, 7));
    EXPECT(serialpost_written_of(answers[0]).raises == write_at(&same, SERIALPOST_IER, 1));
    struct serialpost_input typed = serialpost_input_of(answers[1]), same_typed = type_in(&same, "abc", 3);
    EXPECT(typed.taken == same_typed.taken && typed.full == same_typed.full && typed.raises == same_typed.raises);
    EXPECT(answers[2] == serialpost_serial_room(&same));
    EXPECT(serialpost_read_of(answers[3]).reply == read_at(&same, SERIALPOST_LSR));
    EXPECT(serialpost_read_of(answers[4]).reply == read_at(&same, SERIALPOST_RBR));
    struct serialpost_written sent = serialpost_written_of(answers[5]);
    EXPECT(sent.sends && sent.byte == 'x' && sends(&same, 'x', sent.raises));
    EXPECT(serialpost_written_of(answers[6]).discarded == 2 && flushes(&same, 7) == 2);
    EXPECT(memcmp(&port, &same, sizeof port) == 0);
    EXPECT(!serialpost_serial_play(&port, ops, sizeof ops - 1, (const uint8_t *)"abc", 3, answers, 7));
}

/* ---- A port saved and restored */

static struct serialpost_serial_saved saved_from(const struct serialpost_serial *port)
{
    struct serialpost_serial_saved saved;
    memset(&saved, 0xa5, sizeof saved);
    serialpost_serial_save(port, &saved);
    return saved;
}

static bool restores(struct serialpost_serial *port, const struct serialpost_serial_saved *saved, bool reachable)
{
    struct serialpost_restored answer = serialpost_serial_restore(port, saved);
    return !answer.refused && answer.reachable == reachable && answer.raises == 0;
}

/* A machine moves to another host while someone types: nothing is lost, and the new host's line hears of it. */
static void a_console_moves_to_another_host(void)
{
    struct serialpost_serial here = fresh_port(), there;
    write_at(&here, SERIALPOST_IER, 0x01);
    type_in(&here, "xls -l", 6);
    EXPECT(read_at(&here, SERIALPOST_RBR) == 'x');
    type_in(&here, "\n", 1);

    struct serialpost_serial_saved saved = saved_from(&here);
    EXPECT(saved.count == 6 && memcmp(saved.waiting, "ls -l\n", 6) == 0 && saved.waiting[6] == 0xa5);
    static const uint8_t regs[16] = { 0x0c, 0x01, 0x04, 0x03, 0x08, 0x61, 0xb0 };
    EXPECT(memcmp(saved.regs, regs, sizeof regs) == 0);

    memset(&there, 0x5a, sizeof there);
    struct serialpost_restored answer = serialpost_serial_restore(&there, &saved);
    EXPECT(!answer.refused && answer.raises == 1 && answer.reachable);
    EXPECT(there.pos[2] == 0x5a5a5a5a && there.pos[3] == 0x5a5a5a5a);
    EXPECT(serialpost_serial_room(&there) == SERIALPOST_SERIAL_USUAL - 6);
    EXPECT(read_at(&there, SERIALPOST_IIR) == 0xc4);
    for (const char *byte = "ls -l\n"; *byte; byte++)
        EXPECT(read_at(&there, SERIALPOST_RBR) == *byte);
    EXPECT(read_at(&there, SERIALPOST_LSR) == 0x60);
}

static void what_is_enabled_and_pending_is_raised_again(void)
{
    struct serialpost_serial port = fresh_port();
    struct serialpost_serial_saved saved = saved_from(&port);
    for (uint8_t ier = 0; ier < 4; ier++)
        for (uint8_t iir = 0; iir < 8; iir++)
            for (saved.count = 0; saved.count < 2; saved.count++) {
                saved.regs[SERIALPOST_IER] = ier;
                saved.regs[SERIALPOST_IIR] = iir;
                uint32_t transmitter = (ier & 0x02) && (iir & 0x02), received = (ier & 0x01) && saved.count > 0;
                EXPECT(serialpost_serial_restore(&port, &saved).raises == transmitter + received);
                EXPECT(serialpost_serial_line(&port) == (transmitter + received > 0));
            }
}

static void a_state_that_no_run_comes_to_is_restored_and_told(void)
{
    struct serialpost_serial port = fresh_port();
    struct serialpost_serial_saved saved = saved_from(&port);
    EXPECT(restores(&port, &saved, true));
    saved.regs[SERIALPOST_MSR] = 0xff;
    EXPECT(restores(&port, &saved, false) && read_at(&port, SERIALPOST_MSR) == 0xff);
    saved.regs[SERIALPOST_MSR] = 0xb0;
    saved.regs[14] = 1;
    EXPECT(restores(&port, &saved, false) && port.regs[14] == 1);
    saved.regs[14] = 0;
    saved.regs[FCR] = 0x02; /* no run leaves a bit that is not remembered */
    EXPECT(restores(&port, &saved, false) && port.regs[FCR] == 0x02);
    saved.regs[FCR] = FCR_KEPT;
    EXPECT(restores(&port, &saved, true) && port.regs[FCR] == FCR_KEPT);
    saved.count = 64;
    EXPECT(restores(&port, &saved, false) && read_at(&port, SERIALPOST_LSR) == 0x60);
    EXPECT(serialpost_serial_room(&port) == 0 && read_at(&port, SERIALPOST_RBR) == 0xa5);
}

/* Also a count beyond all that the struct has room for. */
static void a_65th_byte_is_refused_and_nothing_changes(void)
{
    static const uint32_t counts[] = { 65, 1023, 1024, 1025, UINT32_MAX };
    struct serialpost_serial port = fresh_port(), before;
    type_in(&port, "abc", 3);
    before = port;
    struct serialpost_serial_saved saved = saved_from(&port);
    uint8_t form[SERIALPOST_SERIAL_FORM_MOST];
    for (size_t i = 0; i < sizeof counts / sizeof *counts; i++) {
        saved.count = counts[i];
        struct serialpost_restored answer = serialpost_serial_restore(&port, &saved);
        EXPECT(answer.refused && !answer.reachable && answer.raises == 0);
        EXPECT(memcmp(&port, &before, sizeof port) == 0);
        struct serialpost_encoded encoded = serialpost_serial_encode(&saved, form, sizeof form);
        EXPECT(encoded.length == 0 && encoded.reason == SERIALPOST_TOO_MANY);
    }
    saved.count = 64;
    EXPECT(!serialpost_serial_restore(&port, &saved).refused);
}

static void a_port_is_kept_as_bytes(void)
{
    struct serialpost_serial port = fresh_port();
    EXPECT(flushes(&port, 0x87) == 0);
    write_at(&port, SERIALPOST_IER, 0x01);
    type_in(&port, "ls\n", 3);
    struct serialpost_serial_saved saved = saved_from(&port), again;
    uint8_t form[SERIALPOST_SERIAL_FORM_MOST];
    struct serialpost_encoded encoded = serialpost_serial_encode(&saved, form, sizeof form);
    static const uint8_t expected[] = { 3, 0, 0x0c, 1, 4, 3, 8, 0x61, 0xb0, 0, 0, 0x81, 0, 3, 0, 'l', 's', '\n' };
    EXPECT(encoded.reason == SERIALPOST_NOT_REFUSED && encoded.length == sizeof expected);
    EXPECT(memcmp(form, expected, sizeof expected) == 0);

    EXPECT(serialpost_serial_decode(form, encoded.length, &again) == SERIALPOST_NOT_REFUSED && again.count == 3);
    EXPECT(memcmp(again.regs, saved.regs, sizeof again.regs) == 0 && memcmp(again.waiting, "ls\n", 3) == 0);
    EXPECT(serialpost_serial_decode(form, encoded.length - 1, &again) == SERIALPOST_TOO_SHORT && again.count == 3);

    saved.count = SERIALPOST_SERIAL_USUAL;
    EXPECT(serialpost_serial_encode(&saved, form, sizeof form).length == 15 + SERIALPOST_SERIAL_USUAL);
    for (int spare = 10; spare < 15; spare++) {
        saved.regs[spare] = 1;
        encoded = serialpost_serial_encode(&saved, form, sizeof form);
        EXPECT(encoded.length == 0 && encoded.reason == SERIALPOST_SPARE);
        saved.regs[spare] = 0;
    }
}

/* As it was written before there were sizes: it is a port of 64, of whose FCR nothing is remembered. */
static void a_form_of_version_2_is_read(void)
{
    static const uint8_t form[] = { 2, 0, 0x0c, 1, 4, 3, 8, 0x61, 0xb0, 0, 0, 3, 0, 'l', 's', '\n' };
    static const uint8_t now[] = { 3, 0, 0x0c, 1, 4, 3, 8, 0x61, 0xb0, 0, 0, 0, 0, 3, 0, 'l', 's', '\n' };
    struct serialpost_serial port = fresh_port();
    struct serialpost_serial_saved saved, again;
    memset(&saved, 0xa5, sizeof saved);
    EXPECT(serialpost_serial_decode(form, sizeof form, &saved) == SERIALPOST_NOT_REFUSED && saved.count == 3);
    EXPECT(serialpost_serial_restore(&port, &saved).reachable && port.regs[FCR] == 0);
    EXPECT(serialpost_serial_size(&port) == 64 && serialpost_serial_room(&port) == 61);
    uint8_t written[SERIALPOST_SERIAL_FORM_MOST];
    EXPECT(serialpost_serial_encode(&saved, written, sizeof written).length == sizeof now);
    EXPECT(memcmp(written, now, sizeof now) == 0);
    EXPECT(serialpost_serial_decode(now, sizeof now, &again) == SERIALPOST_NOT_REFUSED && again.count == 3);
    EXPECT(memcmp(again.regs, saved.regs, sizeof again.regs) == 0 && memcmp(again.waiting, saved.waiting, 3) == 0);
    for (size_t length = 0; length < sizeof form; length++)
        EXPECT(serialpost_serial_decode(form, length, &saved) == SERIALPOST_TOO_SHORT && saved.count == 3);
    uint8_t longer[100] = { 2, 0, 0x0c, 1, 4, 3, 8, 0x61, 0xb0, 0, 0, 64, 0 };
    EXPECT(serialpost_serial_decode(longer, 77, &saved) == SERIALPOST_NOT_REFUSED && saved.count == 64);
    EXPECT(serialpost_serial_decode(longer, 78, &saved) == SERIALPOST_TRAILING);
    longer[11] = 65;
    EXPECT(serialpost_serial_decode(longer, 78, &saved) == SERIALPOST_TOO_MANY && saved.count == 64);
    for (uint8_t version = 0; version < 9; version++) {
        longer[0] = version;
        bool known = version == 2 || version == 3;
        EXPECT((serialpost_serial_decode(longer, 78, &saved) == SERIALPOST_UNKNOWN_VERSION) == !known);
    }
}

/* ---- The clock */

static uint32_t clock_at(const struct serialpost_clock *clock, uint16_t offset, uint64_t time)
{
    uint8_t bytes[4];
    struct serialpost_clock_access answer = serialpost_clock_read(clock, offset, time, bytes);
    EXPECT(!answer.refused && answer.raises == 0);
    return bytes[0] | (uint32_t)bytes[1] << 8 | (uint32_t)bytes[2] << 16 | (uint32_t)bytes[3] << 24;
}

static bool set_clock(struct serialpost_clock *clock, uint16_t offset, uint64_t time, uint32_t value)
{
    uint8_t bytes[4] = { (uint8_t)value, (uint8_t)(value >> 8), (uint8_t)(value >> 16), (uint8_t)(value >> 24) };
    struct serialpost_clock_access answer = serialpost_clock_write(clock, offset, time, bytes);
    EXPECT(answer.raises == 0);
    return !answer.refused;
}

static void a_clock_runs(void)
{
    struct serialpost_clock clock;
    memset(&clock, 0xa5, sizeof clock);
    serialpost_clock_init(&clock);
    EXPECT(clock_at(&clock, SERIALPOST_RTCDR, 1000) == 1000);
    EXPECT(set_clock(&clock, SERIALPOST_RTCLR, 1000, 5));
    EXPECT(clock_at(&clock, SERIALPOST_RTCDR, 1010) == 15);
    EXPECT(clock.load == 5 && clock.offset_low == (uint32_t)-995 && clock.offset_high == UINT32_MAX);
    EXPECT(clock_at(&clock, SERIALPOST_RTCDR, 0x100000000 + 1010) == 15);
    EXPECT(clock_at(&clock, SERIALPOST_RTCDR, 990) == 990);
    EXPECT(set_clock(&clock, SERIALPOST_RTCCR, 1010, 1));
    EXPECT(clock_at(&clock, SERIALPOST_RTCDR, 1010) == 1010);
}

static void a_clock_names_its_words(void)
{
    struct serialpost_clock clock = { 1, 2, 1, 5, 0, 0, { 8, 9 } };
    EXPECT(clock_at(&clock, SERIALPOST_RTCLR, 0) == 1);
    EXPECT(clock_at(&clock, SERIALPOST_RTCMR, 0) == 2);
    EXPECT(clock_at(&clock, SERIALPOST_RTCIMSC, 0) == 1);
    EXPECT(clock_at(&clock, SERIALPOST_RTCRIS, 0) == 5);
    EXPECT(clock_at(&clock, SERIALPOST_RTCMIS, 0) == 1);
    EXPECT(set_clock(&clock, SERIALPOST_RTCICR, 0, 4) && clock.raw_status == 1);
    EXPECT(set_clock(&clock, SERIALPOST_RTCIMSC, 0, 2) && clock.mask == 0);
    EXPECT(set_clock(&clock, SERIALPOST_RTCMR, 0, 9) && clock.match == 9);
    clock.offset_low = 7;
    EXPECT(clock_at(&clock, SERIALPOST_RTCDR, 3) == 10);
    clock.offset_high = 1;
    EXPECT(clock_at(&clock, SERIALPOST_RTCDR, 3) == 3);
    EXPECT(clock.spare[0] == 8 && clock.spare[1] == 9);
}

static void a_clock_refuses(void)
{
    struct serialpost_clock clock = { 1, 2, 3, 4, 5, 6, { 7, 8 } }, before = clock;
    uint8_t bytes[4] = { 1, 2, 3, 4 };
    EXPECT(serialpost_clock_read(&clock, SERIALPOST_RTCICR, 9, bytes).refused);
    EXPECT(memcmp(bytes, (uint8_t[]){ 1, 2, 3, 4 }, 4) == 0);
    EXPECT(!set_clock(&clock, SERIALPOST_RTCDR, 9, 0) && !set_clock(&clock, 0xfe0, 9, 0));
    EXPECT(memcmp(&clock, &before, sizeof clock) == 0);
    EXPECT(clock_at(&clock, 0xfe0, 0) == 0x31 && clock_at(&clock, 0xfff, 0) == 0xb1);
}

static void a_clock_moves_to_another_host(void)
{
    struct serialpost_clock here, saved, there;
    memset(&saved, 0xa5, sizeof saved);
    memset(&there, 0x5a, sizeof there);
    serialpost_clock_init(&here);
    set_clock(&here, SERIALPOST_RTCLR, 1000, 5);
    set_clock(&here, SERIALPOST_RTCMR, 1000, 77);
    serialpost_clock_save(&here, &saved);
    EXPECT(saved.load == 5 && saved.match == 77 && saved.offset_low == (uint32_t)-995 && saved.offset_high == UINT32_MAX);
    EXPECT(serialpost_clock_restore(&there, &saved).reachable);
    EXPECT(clock_at(&there, SERIALPOST_RTCDR, 1010) == 15 && clock_at(&there, SERIALPOST_RTCMR, 1010) == 77);
}

static void a_clock_that_no_run_comes_to_is_restored_and_told(void)
{
    static const struct {
        struct serialpost_clock saved;
        bool reachable;
    } clocks[] = {
        { { 5, 9, 1, 0, 5, 0, { 0, 0 } }, true },           /* loaded with 5 at the second 0 */
        { { 5, 9, 1, 0, 6, 0, { 0, 0 } }, false },          /* .. at the second -1 */
        { { 5, 0, 0, 0, 6, UINT32_MAX, { 0, 0 } }, true },  /* .. at the second 2^32 - 1 */
        { { 5, 0, 0, 0, 5, UINT32_MAX, { 0, 0 } }, false }, /* .. at the second 2^32 */
        { { 0, 0, 0, 0, 0, 0x80000000, { 0, 0 } }, false },
        { { 0, 0, 2, 0, 0, 0, { 0, 0 } }, false }, /* a mask of two bits */
        { { 0, 0, 0, 1, 0, 0, { 0, 0 } }, false }, /* an interrupt, which nothing sets */
        { { 0, 0, 0, 0, 0, 0, { 1, 0 } }, false }, /* a spare word, and nothing sets it either */
        { { 0, 0, 0, 0, 0, 0, { 0, 1 } }, false },
    };
    for (size_t i = 0; i < sizeof clocks / sizeof *clocks; i++) {
        struct serialpost_clock clock;
        struct serialpost_restored answer = serialpost_clock_restore(&clock, &clocks[i].saved);
        EXPECT(answer.reachable == clocks[i].reachable && !answer.refused && answer.raises == 0);
        EXPECT(memcmp(&clock, &clocks[i].saved, sizeof clock) == 0);
    }
}

static void a_clock_is_kept_as_bytes(void)
{
    struct serialpost_clock clock = { 5, 77, 1, 0, (uint32_t)-995, UINT32_MAX, { 0, 0 } }, again;
    uint8_t form[SERIALPOST_CLOCK_FORM_SIZE];
    struct serialpost_encoded encoded = serialpost_clock_encode(&clock, form, sizeof form);
    EXPECT(encoded.length == sizeof form && encoded.reason == SERIALPOST_NOT_REFUSED);
    EXPECT(form[0] == 1 && form[1] == 0 && form[2] == 5 && form[6] == 77 && form[18] == 0x1d && form[19] == 0xfc);
    EXPECT(serialpost_clock_decode(form, sizeof form, &again) == SERIALPOST_NOT_REFUSED);
    EXPECT(memcmp(&again, &clock, sizeof clock) == 0);
    form[0] = 2;
    EXPECT(serialpost_clock_decode(form, sizeof form, &again) == SERIALPOST_UNKNOWN_VERSION);
    clock.spare[1] = 1;
    encoded = serialpost_clock_encode(&clock, form, sizeof form);
    EXPECT(encoded.length == 0 && encoded.reason == SERIALPOST_SPARE && form[0] == 2);
}

/* Where the sum with the host's time does not fit 32 bits, or not even 64, the clock shows the host's time. */
static void a_clock_with_any_offset_is_kept_as_bytes(void)
{
    static const int64_t offsets[] = { INT64_MAX, INT64_MIN, INT64_MAX - UINT32_MAX, 0x100000000, -0x100000000, -0x100000001 };
    static const uint64_t times[] = { 0, 1, 1000, 0x7fffffff, 0xffffffff };
    for (size_t i = 0; i < sizeof offsets / sizeof *offsets; i++) {
        uint64_t bits = (uint64_t)offsets[i];
        struct serialpost_clock clock = { 5, 77, 1, 0, (uint32_t)bits, (uint32_t)(bits >> 32), { 0, 0 } }, read, restored;
        uint8_t form[SERIALPOST_CLOCK_FORM_SIZE];
        EXPECT(serialpost_clock_encode(&clock, form, sizeof form).reason == SERIALPOST_NOT_REFUSED);
        EXPECT(serialpost_clock_decode(form, sizeof form, &read) == SERIALPOST_NOT_REFUSED);
        EXPECT(!serialpost_clock_restore(&restored, &read).reachable);
        EXPECT(memcmp(&restored, &clock, sizeof clock) == 0);
        for (size_t k = 0; k < sizeof times / sizeof *times; k++)
            EXPECT(clock_at(&restored, SERIALPOST_RTCDR, times[k]) == times[k]);
    }
}

/* ---- Counters */

static bool port_counts(const struct serialpost_serial_counters *counters, uint64_t data_reads, uint64_t sent, uint64_t lost,
                        uint64_t none_left)
{
    return counters->data_reads == data_reads && counters->sent == sent && counters->lost == lost
           && counters->none_left == none_left;
}

static bool clock_counts(const struct serialpost_clock_counters *counters, uint64_t invalid_reads, uint64_t invalid_writes)
{
    return counters->invalid_reads == invalid_reads && counters->invalid_writes == invalid_writes;
}

/* The guest reads at an offset, and it is counted. */
static struct serialpost_read counted_read(struct serialpost_serial *port, struct serialpost_serial_counters *counters,
                                           uint8_t offset)
{
    struct serialpost_read answer = serialpost_serial_read(port, offset);
    serialpost_serial_count(counters, answer.word);
    return answer;
}

static struct serialpost_written counted_write(struct serialpost_serial *port, struct serialpost_serial_counters *counters,
                                               uint8_t offset, uint8_t value)
{
    struct serialpost_written answer = serialpost_serial_write(port, offset, value);
    serialpost_serial_count(counters, answer.word);
    return answer;
}

static void reads_are_counted(void)
{
    struct serialpost_serial port = fresh_port();
    struct serialpost_serial_counters counters;
    memset(&counters, 0xa5, sizeof counters);
    serialpost_serial_counters_init(&counters);
    EXPECT(port_counts(&counters, 0, 0, 0, 0));

    serialpost_serial_count(&counters, type_in(&port, "ab", 2).word);
    EXPECT(port_counts(&counters, 0, 0, 0, 0));
    struct serialpost_read first = counted_read(&port, &counters, SERIALPOST_RBR);
    EXPECT(first.reply == 'a' && first.data_read && first.delivered && !first.none_left);
    EXPECT(port_counts(&counters, 1, 0, 0, 0));
    struct serialpost_read last = counted_read(&port, &counters, SERIALPOST_RBR);
    EXPECT(last.reply == 'b' && last.data_read && last.delivered && last.none_left);
    EXPECT(port_counts(&counters, 2, 0, 0, 1));
    struct serialpost_read nothing = counted_read(&port, &counters, SERIALPOST_RBR);
    EXPECT(nothing.reply == 0 && nothing.data_read && !nothing.delivered && nothing.none_left);
    EXPECT(port_counts(&counters, 3, 0, 0, 2));

    struct serialpost_read status = counted_read(&port, &counters, SERIALPOST_LSR);
    EXPECT(!status.data_read && !status.delivered && !status.none_left);
    counted_write(&port, &counters, SERIALPOST_LCR, 0x83);
    struct serialpost_read divisor = counted_read(&port, &counters, 0);
    EXPECT(divisor.reply == 0x0c && !divisor.data_read && !divisor.delivered && !divisor.none_left);
    EXPECT(port_counts(&counters, 3, 0, 0, 2));
}

static void bytes_sent_and_lost_are_counted(void)
{
    struct serialpost_serial port = fresh_port();
    struct serialpost_serial_counters counters;
    serialpost_serial_counters_init(&counters);
    struct serialpost_written sent = counted_write(&port, &counters, SERIALPOST_THR, 'x');
    EXPECT(sent.sends && !sent.looped && !sent.dropped && port_counts(&counters, 0, 1, 0, 0));
    counted_write(&port, &counters, SERIALPOST_THR, 'y');
    serialpost_serial_lost(&counters);
    EXPECT(port_counts(&counters, 0, 2, 1, 0));

    counted_write(&port, &counters, SERIALPOST_MCR, 0x10);
    for (int i = 0; i < SERIALPOST_SERIAL_USUAL; i++) {
        struct serialpost_written looped = counted_write(&port, &counters, SERIALPOST_THR, 'z');
        EXPECT(!looped.sends && looped.looped && !looped.dropped);
    }
    struct serialpost_written dropped = counted_write(&port, &counters, SERIALPOST_THR, 'z');
    EXPECT(!dropped.sends && !dropped.looped && dropped.dropped && !dropped.flushed && dropped.discarded == 0);
    EXPECT(counted_write(&port, &counters, SERIALPOST_FCR, 0x07).discarded == SERIALPOST_SERIAL_USUAL);
    EXPECT(port_counts(&counters, 0, 2, 1, 0));
}

/* Each as often as a port that is called for each operation. */
static void a_run_is_counted(void)
{
    struct serialpost_serial port = fresh_port();
    struct serialpost_serial_counters counters;
    static const uint8_t ops[] = { 2, 2, 0, 0, 0, 0, 0, 0, 0, 0, 0, 0, 1, 0, 'x', 0, 5, 0, 3, 0, 0 };
    uint32_t answers[7];
    EXPECT(serialpost_serial_play(&port, ops, sizeof ops, (const uint8_t *)"ab", 2, answers, 7));
    serialpost_serial_counters_init(&counters);
    for (int i = 0; i < 7; i++)
        serialpost_serial_count(&counters, answers[i]);
    EXPECT(port_counts(&counters, 3, 1, 0, 2));
}

static void counters_stop_at_the_highest_number(void)
{
    struct serialpost_serial_counters port = { UINT64_MAX - 1, UINT64_MAX, UINT64_MAX - 1, UINT64_MAX };
    for (int i = 0; i < 2; i++) {
        serialpost_serial_count(&port, SERIALPOST_WORD_DATA_READ | SERIALPOST_WORD_SENDS | SERIALPOST_WORD_NONE_LEFT);
        serialpost_serial_lost(&port);
        EXPECT(port_counts(&port, UINT64_MAX, UINT64_MAX, UINT64_MAX, UINT64_MAX));
    }
    struct serialpost_serial_counters other = { UINT64_MAX, UINT64_MAX - 1, UINT64_MAX, UINT64_MAX - 1 };
    serialpost_serial_count(&other, SERIALPOST_WORD_SENDS | SERIALPOST_WORD_NONE_LEFT);
    EXPECT(port_counts(&other, UINT64_MAX, UINT64_MAX, UINT64_MAX, UINT64_MAX));

    struct serialpost_clock_counters clock = { UINT64_MAX - 1, UINT64_MAX };
    for (int i = 0; i < 2; i++) {
        serialpost_clock_count_read(&clock, SERIALPOST_WORD_REFUSED);
        serialpost_clock_count_write(&clock, SERIALPOST_WORD_REFUSED);
        EXPECT(clock_counts(&clock, UINT64_MAX, UINT64_MAX));
    }
}

/* Each bit of a word by itself moves the counter that is for it and no other. */
static void each_bit_moves_its_counter(void)
{
    for (int i = 0; i < 32; i++) {
        uint32_t bit = (uint32_t)1 << i;
        struct serialpost_serial_counters port = { 10, 20, 30, 40 };
        serialpost_serial_count(&port, bit);
        EXPECT(port_counts(&port, bit == 0x80000 ? 11 : 10, bit == 0x20000 ? 21 : 20, 30, bit == 0x200000 ? 41 : 40));
        serialpost_serial_count(&port, ~(uint32_t)0x2a0000);
        EXPECT(port_counts(&port, bit == 0x80000 ? 11 : 10, bit == 0x20000 ? 21 : 20, 30, bit == 0x200000 ? 41 : 40));
        struct serialpost_clock_counters clock = { 1, 5 };
        serialpost_clock_count_read(&clock, bit);
        EXPECT(clock_counts(&clock, bit == 0x10000 ? 2 : 1, 5));
        serialpost_clock_count_write(&clock, bit);
        EXPECT(clock_counts(&clock, bit == 0x10000 ? 2 : 1, bit == 0x10000 ? 6 : 5));
    }
    struct serialpost_serial_counters port = { 10, 20, 30, 40 };
    serialpost_serial_lost(&port);
    EXPECT(port_counts(&port, 10, 20, 31, 40));
}

static void invalid_accesses_of_the_clock_are_counted(void)
{
    struct serialpost_clock clock;
    struct serialpost_clock_counters counters;
    uint8_t bytes[4] = { 0 };
    serialpost_clock_init(&clock);
    memset(&counters, 0xa5, sizeof counters);
    serialpost_clock_counters_init(&counters);
    EXPECT(clock_counts(&counters, 0, 0));
    serialpost_clock_count_read(&counters, serialpost_clock_read(&clock, SERIALPOST_RTCDR, 0, bytes).word);
    serialpost_clock_count_write(&counters, serialpost_clock_write(&clock, SERIALPOST_RTCMR, 0, bytes).word);
    EXPECT(clock_counts(&counters, 0, 0));
    serialpost_clock_count_read(&counters, serialpost_clock_read(&clock, SERIALPOST_RTCICR, 0, bytes).word);
    EXPECT(clock_counts(&counters, 1, 0));
    serialpost_clock_count_write(&counters, serialpost_clock_write(&clock, SERIALPOST_RTCDR, 0, bytes).word);
    serialpost_clock_count_write(&counters, serialpost_clock_write(&clock, 0xfe0, 0, bytes).word);
    EXPECT(clock_counts(&counters, 1, 2));
}

/* ---- The reset controller */

static void one_write_resets(void)
{
    for (unsigned offset = 0; offset < 256; offset++)
        for (unsigned value = 0; value < 256; value++) {
            EXPECT(serialpost_i8042_write((uint8_t)offset, (uint8_t)value) == (offset == 4 && value == 0xfe));
            EXPECT(serialpost_i8042_read((uint8_t)offset) == 0);
        }
}

int main(void)
{
    EXPECT(serialpost_version() == SERIALPOST_VERSION);
    a_fresh_port();
    input_is_read_in_order();
    output_is_sent();
    two_kinds_are_told_one_after_the_other();
    a_third_byte_holds_the_line_high_and_raises_nothing();
    a_full_port_refuses();
    the_loop_returns_what_is_written();
    fcr_empties_the_buffer();
    an_empty_buffer_is_emptied_and_nothing_thrown_away();
    the_transmitters_interrupt_stays();
    fcr_empties_the_buffer_always();
    the_other_bits_are_remembered_alone();
    a_run_is_the_calls_one_after_another();
    a_console_moves_to_another_host();
    what_is_enabled_and_pending_is_raised_again();
    a_state_that_no_run_comes_to_is_restored_and_told();
    a_65th_byte_is_refused_and_nothing_changes();
    a_port_is_kept_as_bytes();
    a_form_of_version_2_is_read();
    a_clock_runs();
    a_clock_names_its_words();
    a_clock_refuses();
    a_clock_moves_to_another_host();
    a_clock_that_no_run_comes_to_is_restored_and_told();
    a_clock_is_kept_as_bytes();
    a_clock_with_any_offset_is_kept_as_bytes();
    reads_are_counted();
    bytes_sent_and_lost_are_counted();
    a_run_is_counted();
    counters_stop_at_the_highest_number();
    each_bit_moves_its_counter();
    invalid_accesses_of_the_clock_are_counted();
    one_write_resets();
    return 0;
}
