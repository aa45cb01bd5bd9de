/*
 * Of an argument of 8, 16 or 32 bits only these count: what lies above them in its register is up to the caller's compiler.
 * Each function with such an argument is called by its typed call, and once more with 64 bits of which the upper ones
 * are random; both must answer and do the same. A bool that is answered has 8 bits, which must be 0 or 1; what lies
 * above them is the function's to leave, and no caller may look at it.
 */
#include "any.h"
#include <serialpost.h>
#include <string.h>

#define ROUNDS 200000

/* The same functions, as a caller sees them that fills whole registers and reads whole registers. */
#define WHOLE(name) __asm__("serialpost5_" #name)
uint64_t whole_serial_init(uint8_t *regs, uint32_t *pos, uint64_t size) WHOLE(serial_init);
uint64_t whole_serial_read(uint8_t *regs, uint32_t *pos, const uint8_t *ring, uint64_t offset) WHOLE(serial_read);
uint64_t whole_serial_write(uint8_t *regs, uint32_t *pos, uint8_t *ring, uint64_t offset, uint64_t value)
    WHOLE(serial_write);
uint64_t whole_serial_line(const uint8_t *regs, const uint32_t *pos) WHOLE(serial_line);
uint64_t whole_serial_play(uint8_t *regs, uint32_t *pos, uint8_t *ring, const uint8_t *ops, size_t ops_length,
                           const uint8_t *inputs, size_t inputs_length, uint32_t *answers, size_t answers_length)
    WHOLE(serial_play);
uint64_t whole_clock_read(const struct serialpost_clock *clock, uint64_t offset, uint64_t time, uint8_t *bytes)
    WHOLE(clock_read);
uint64_t whole_clock_write(struct serialpost_clock *clock, uint64_t offset, uint64_t time, const uint8_t *bytes)
    WHOLE(clock_write);
void whole_serial_count(struct serialpost_serial_counters *counters, uint64_t answer) WHOLE(serial_count);
void whole_clock_count_read(struct serialpost_clock_counters *counters, uint64_t answer) WHOLE(clock_count_read);
void whole_clock_count_write(struct serialpost_clock_counters *counters, uint64_t answer) WHOLE(clock_count_write);
uint64_t whole_i8042_read(uint64_t offset) WHOLE(i8042_read);
uint64_t whole_i8042_write(uint64_t offset, uint64_t value) WHOLE(i8042_write);

static uint64_t any_above(int bits, uint64_t value)
{
    uint64_t above = once_in(4) ? UINT64_MAX : (uint64_t)any() << 40 ^ (uint64_t)any() << 20 ^ any();
    return value | above << bits;
}

#define PARTS(port) (port)->regs, (port)->pos, (port)->ring

static bool is_bool(uint64_t answer, bool expected)
{
    return (uint8_t)answer == (expected ? 1 : 0);
}

static struct serialpost_serial any_port(void)
{
    struct serialpost_serial port;
    any_bytes(&port, sizeof port);
    port.pos[1] %= serialpost_serial_size(&port) + 3;
    return port;
}

/* Half of the time the size is one with which a port is made. */
static void making(void)
{
    struct serialpost_serial port = any_port(), same = port;
    uint32_t size = once_in(2) ? 16u << any() % 7 : any() % 2100;
    uint32_t answer = serialpost_serial_init_sized(&port, size) ? 0 : SERIALPOST_WORD_REFUSED;
    EXPECT((uint32_t)whole_serial_init(same.regs, same.pos, any_above(32, size)) == answer);
    EXPECT(memcmp(&port, &same, sizeof port) == 0);
}

static void serial_accesses(void)
{
    struct serialpost_serial port = any_port(), same = port;
    uint8_t offset = (uint8_t)(once_in(4) ? any() : any() % 9), value = (uint8_t)any();
    struct serialpost_written wrote = serialpost_serial_write(&port, offset, value);
    EXPECT((uint32_t)whole_serial_write(PARTS(&same), any_above(8, offset), any_above(8, value)) == wrote.word);
    struct serialpost_read read = serialpost_serial_read(&port, offset);
    EXPECT((uint32_t)whole_serial_read(PARTS(&same), any_above(8, offset)) == read.word);
    EXPECT(memcmp(&port, &same, sizeof port) == 0);
    EXPECT(is_bool(whole_serial_line(port.regs, port.pos), serialpost_serial_line(&port)));
}

/* A run of one operation, which half of the time is none. */
static void runs(void)
{
    struct serialpost_serial port = any_port(), same = port;
    uint8_t ops[3] = { (uint8_t)(any() % 8), 0, 0 }, input = 0;
    uint32_t answer;
    bool played = serialpost_serial_play(&port, ops, sizeof ops, &input, 0, &answer, 1);
    EXPECT(played == (ops[0] < 4));
    EXPECT(is_bool(whole_serial_play(PARTS(&same), ops, sizeof ops, &input, 0, &answer, 1), played));
}

static void clock_accesses(void)
{
    struct serialpost_clock clock, same;
    uint8_t bytes[4], same_bytes[4];
    any_bytes(&clock, sizeof clock);
    any_bytes(bytes, sizeof bytes);
    same = clock;
    memcpy(same_bytes, bytes, sizeof bytes);
    uint16_t offset = (uint16_t)(once_in(4) ? any() : once_in(4) ? 0xfe0 + any() % 32 : any() % 9 * 4);
    uint64_t time = (uint64_t)any() << 40 ^ any();
    EXPECT((uint32_t)whole_clock_write(&same, any_above(16, offset), time, bytes)
           == serialpost_clock_write(&clock, offset, time, bytes).word);
    EXPECT((uint32_t)whole_clock_read(&same, any_above(16, offset), time, same_bytes)
           == serialpost_clock_read(&clock, offset, time, bytes).word);
    EXPECT(memcmp(bytes, same_bytes, sizeof bytes) == 0 && memcmp(&clock, &same, sizeof clock) == 0);
}

static void counts(void)
{
    struct serialpost_serial_counters port = { any(), any(), any(), any() }, same_port = port;
    struct serialpost_clock_counters clock = { any(), any() }, same_clock = clock;
    uint32_t word = any();
    serialpost_serial_count(&port, word);
    whole_serial_count(&same_port, any_above(32, word));
    EXPECT(memcmp(&port, &same_port, sizeof port) == 0);
    serialpost_clock_count_read(&clock, word);
    whole_clock_count_read(&same_clock, any_above(32, word));
    serialpost_clock_count_write(&clock, word / 2);
    whole_clock_count_write(&same_clock, any_above(32, word / 2));
    EXPECT(memcmp(&clock, &same_clock, sizeof clock) == 0);
}

static void reset_accesses(void)
{
    uint8_t offset = (uint8_t)(any() % 8), value = (uint8_t)(once_in(4) ? any() : 0xfe);
    EXPECT(is_bool(whole_i8042_write(any_above(8, offset), any_above(8, value)), offset == 4 && value == 0xfe));
    EXPECT((uint8_t)whole_i8042_read(any_above(8, offset)) == 0);
}

int main(void)
{
    for (int round = 0; round < ROUNDS; round++) {
        making();
        serial_accesses();
        runs();
        clock_accesses();
        counts();
        reset_accesses();
    }
    return 0;
}
