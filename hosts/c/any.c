/*
 * Any bytes, any arguments: throws random states and arguments at every function. What is lent lies against a page that
 * may not be touched, behind it in a first round and before it in a second, so that one byte too many, read or written,
 * ends the program. The parts of a port lie apart for that, so the functions are called as serialpost_raw.h has them.
 */
#include "any.h"
#include <serialpost.h>
#include <string.h>

#define ROUNDS 200000

/* ---- The serial port */

#define REGS sizeof(((struct serialpost_serial *)0)->regs)
#define POS sizeof(((struct serialpost_serial *)0)->pos)
#define RING sizeof(((struct serialpost_serial *)0)->ring)
#define FCR 9
#define FCR_KEPT 0xc9
#define FIRST_SPARE 10
#define SIZE 15
#define PARTS(port) (port)->regs, (port)->pos, (port)->ring

struct port {
    uint8_t *regs;
    uint32_t *pos;
    uint8_t *ring;
};

static struct port fenced_port(bool at_end)
{
    struct port port = { lent(fence(at_end), REGS), lent(fence(at_end), POS), lent(fence(at_end), RING) };
    any_bytes(port.ring, RING);
    return port;
}

/* The size that register 15 tells. A port is made with a power of two from 16 to 1,024. */
static uint32_t size_in(const uint8_t *regs)
{
    return (63 + 4 * (uint32_t)regs[SIZE]) % 1024 + 1;
}

static bool is_made(uint32_t size)
{
    return size >= 16 && size <= 1024 && (size & (size - 1)) == 0;
}

static uint32_t any_made(void)
{
    return 16u << any() % 7;
}

static uint8_t register_for(uint32_t size)
{
    return (uint8_t)((size - 64) / 4);
}

/* The ring gets only some new bytes each time, to be quick. The first waiting byte often lies near its end, and as many
 * wait as the size says, or nearly. */
static void any_state(struct port port)
{
    any_bytes(port.regs, REGS);
    any_bytes(port.pos, POS);
    any_bytes(port.ring + any() % 16 * 64, 64);
    if (once_in(2))
        port.regs[SIZE] = register_for(any_made());
    uint32_t size = size_in(port.regs);
    if (!once_in(4))
        port.pos[1] = once_in(2) ? size - 2 + any() % 5 : port.pos[1] % size;
    if (once_in(4))
        port.pos[0] = port.pos[0] / RING * RING + RING - port.pos[0] % 70;
}

static struct serialpost_serial copy(struct port port)
{
    struct serialpost_serial copied;
    memcpy(copied.regs, port.regs, REGS);
    memcpy(copied.pos, port.pos, POS);
    memcpy(copied.ring, port.ring, RING);
    return copied;
}

static bool is(struct port port, const struct serialpost_serial *other)
{
    return memcmp(port.regs, other->regs, REGS) == 0 && memcmp(port.pos, other->pos, POS) == 0
           && memcmp(port.ring, other->ring, RING) == 0;
}

/* And so is the size. */
static bool spares_kept(struct port port, const struct serialpost_serial *before)
{
    return memcmp(port.regs + FIRST_SPARE, before->regs + FIRST_SPARE, REGS - FIRST_SPARE) == 0
           && port.pos[2] == before->pos[2] && port.pos[3] == before->pos[3];
}

static bool spares_zero(const uint8_t *regs)
{
    static const uint8_t zero[SIZE - FIRST_SPARE];
    return memcmp(regs + FIRST_SPARE, zero, sizeof zero) == 0;
}

/* Whether a kind is active: received data while a byte waits, the empty transmitter while its bit is stored. */
static bool has_data(const uint8_t *regs, const uint32_t *pos)
{
    return (regs[SERIALPOST_IER] & 0x01) && pos[1] > 0;
}

static bool is_empty(const uint8_t *regs)
{
    return (regs[SERIALPOST_IER] & 0x02) && (regs[SERIALPOST_IIR] & 0x02);
}

/* Expects the raises of a call: one for each kind that is active now and was not before. */
static void expect_raises(uint32_t answer, struct port port, const struct serialpost_serial *before)
{
    bool data = has_data(port.regs, port.pos), empty = is_empty(port.regs);
    bool new_data = data && !has_data(before->regs, before->pos), new_empty = empty && !is_empty(before->regs);
    EXPECT(answer / SERIALPOST_WORD_RAISE == (uint32_t)new_data + new_empty);
    EXPECT(serialpost5_serial_line(port.regs, port.pos) == (data || empty));
}

static uint8_t any_offset(void)
{
    return (uint8_t)(once_in(4) ? any() : any() % 9);
}

/* Whether offset 0 is RBR and THR, and not the divisor's. */
static bool is_data(const struct serialpost_serial *port, uint8_t offset)
{
    return offset == SERIALPOST_RBR && !(port->regs[SERIALPOST_LCR] & 0x80);
}

/* What the answer to a read says besides the reply. */
static uint32_t told_of_read(const struct serialpost_serial *before, uint8_t offset)
{
    if (!is_data(before, offset))
        return 0;
    return SERIALPOST_WORD_DATA_READ | (before->pos[1] > 0 ? SERIALPOST_WORD_DELIVERED : 0)
           | (before->pos[1] < 2 ? SERIALPOST_WORD_NONE_LEFT : 0);
}

static bool is_flush(uint8_t offset, uint8_t value)
{
    return offset == SERIALPOST_FCR && (value & 0x02);
}

/* How many bytes wait in any memory. */
static uint32_t waiting_in(const uint32_t *pos)
{
    return pos[1] < RING ? pos[1] : RING;
}

/* What the answer to a write says besides the raises. */
static uint32_t told_of_write(const struct serialpost_serial *before, uint8_t offset, uint8_t value)
{
    if (is_flush(offset, value))
        return SERIALPOST_WORD_FLUSHED | waiting_in(before->pos);
    if (!is_data(before, offset))
        return 0;
    if (before->regs[SERIALPOST_MCR] & 0x10)
        return before->pos[1] < size_in(before->regs) ? SERIALPOST_WORD_LOOPED : SERIALPOST_WORD_DROPPED;
    return SERIALPOST_WORD_SENDS | value;
}

static void any_read(struct port port)
{
    struct serialpost_serial before = copy(port);
    uint8_t offset = any_offset();
    uint32_t answer = serialpost5_serial_read(PARTS(&port), offset);
    EXPECT(answer - (uint8_t)answer == told_of_read(&before, offset));
    uint8_t code = has_data(before.regs, before.pos) ? 0x04 : is_empty(before.regs) ? 0x02 : 0x01;
    EXPECT(offset != SERIALPOST_IIR || answer == (0xc0u | code));
    expect_raises(answer, port, &before);
    EXPECT(memcmp(port.ring, before.ring, RING) == 0 && spares_kept(port, &before) && port.regs[FCR] == before.regs[FCR]);
    EXPECT(offset < 8 || (answer == 0 && is(port, &before)));
}

/* What FCR leaves: what is remembered of it, and where it empties the port no byte, nor a sign of one. Of IIR bit 0x02 alone
 * has a meaning. */
static void expect_fcr(struct port port, const struct serialpost_serial *before, uint8_t value)
{
    struct serialpost_serial expected = *before;
    expected.regs[FCR] = value & FCR_KEPT;
    if (is_flush(SERIALPOST_FCR, value)) {
        expected.pos[1] = 0;
        expected.regs[SERIALPOST_LSR] &= 0xfe;
        EXPECT(is_empty(port.regs) == is_empty(before->regs));
        expected.regs[SERIALPOST_IIR] = port.regs[SERIALPOST_IIR];
    }
    EXPECT(is(port, &expected));
}

static void any_write(struct port port)
{
    struct serialpost_serial before = copy(port);
    uint8_t offset = any_offset();
    uint8_t value = (uint8_t)any();
    uint32_t answer = serialpost5_serial_write(PARTS(&port), offset, value);
    expect_raises(answer, port, &before);
    EXPECT(answer % SERIALPOST_WORD_RAISE == told_of_write(&before, offset, value));
    EXPECT(spares_kept(port, &before));
    EXPECT(offset < 8 || (answer == 0 && is(port, &before)));
    if (offset == SERIALPOST_FCR)
        expect_fcr(port, &before, value);
    else
        EXPECT(port.regs[FCR] == before.regs[FCR]);
}

static void any_input(struct port port, struct fenced input)
{
    struct serialpost_serial before = copy(port);
    size_t length = any() % (once_in(4) ? 1100 : 200);
    uint32_t room = serialpost5_serial_room(port.regs, port.pos);
    uint32_t answer = serialpost5_serial_input(PARTS(&port), lent(input, length), length);
    uint32_t taken = answer & SERIALPOST_WORD_NUMBER;
    EXPECT(taken == 0 || taken == (room < length ? room : length));
    expect_raises(answer, port, &before);
    EXPECT(serialpost5_serial_room(port.regs, port.pos) == room - taken);
    EXPECT(answer % SERIALPOST_WORD_RAISE == taken || (room == 0 && answer == SERIALPOST_WORD_REFUSED));
    EXPECT(spares_kept(port, &before) && port.regs[FCR] == before.regs[FCR]);
    EXPECT(taken > 0 || is(port, &before));
}

/* Saves a port, into `kept` for its registers and ring. */
static void any_save(struct port port, struct port kept)
{
    struct serialpost_serial before = copy(port);
    uint8_t waiting[RING];
    any_bytes(kept.regs, REGS);
    any_bytes(kept.ring, 70);
    memcpy(waiting, kept.ring, RING);
    uint32_t count = serialpost5_serial_save(PARTS(&port), kept.regs, kept.ring);
    EXPECT(count == waiting_in(port.pos));
    for (uint32_t i = 0; i < count; i++)
        waiting[i] = port.ring[(port.pos[0] + i) % RING];
    EXPECT(is(port, &before) && memcmp(kept.regs, port.regs, REGS) == 0 && memcmp(kept.ring, waiting, RING) == 0);
}

/* Registers to be restored: any, or half of the time such as a run may leave, or nearly. Answers how many bytes are to
 * wait: no more than the size, or one more. */
static size_t any_saved(uint8_t *regs)
{
    any_bytes(regs, REGS);
    if (!once_in(4))
        regs[SIZE] = register_for(any_made());
    size_t length = once_in(2) ? any() % 4 : size_in(regs) - 3 + any() % 5;
    if (once_in(2))
        return length;
    regs[SERIALPOST_IER] &= 0x0f;
    regs[SERIALPOST_IIR] = once_in(2) ? 0x01 : (uint8_t)(any() % 4 * 2);
    regs[SERIALPOST_LSR] = length == 0 ? 0x60 : 0x61;
    regs[SERIALPOST_MSR] = 0xb0;
    regs[FCR] &= FCR_KEPT;
    memset(regs + FIRST_SPARE, 0, SIZE - FIRST_SPARE);
    if (once_in(4))
        regs[any() % REGS] ^= (uint8_t)(1 << any() % 8);
    return length;
}

/* Whether a run comes to these registers while `length` bytes wait, no more than the size: crates/runs/specs/Reachable.antt.
 * No run sets a spare one. */
static bool run_leaves_port(const uint8_t *regs, size_t length)
{
    uint8_t active = ((regs[SERIALPOST_IER] & 0x01) && length > 0 ? 0x04 : 0) | (is_empty(regs) ? 0x02 : 0);
    return regs[SERIALPOST_IER] < 16 && regs[SERIALPOST_IIR] == (active ? active : 0x01)
           && regs[SERIALPOST_LSR] == (length > 0 ? 0x61 : 0x60) && regs[SERIALPOST_MSR] == 0xb0
           && (regs[FCR] & FCR_KEPT) == regs[FCR] && spares_zero(regs) && is_made(size_in(regs));
}

/* Restores a port. Answers whether a run could have come to it. */
static bool any_restore(struct port port, struct port kept, struct fenced input)
{
    struct serialpost_serial before = copy(port);
    struct serialpost_serial_saved again;
    uint8_t *regs = kept.regs;
    size_t length = any_saved(regs);
    uint8_t *waiting = lent(input, length);
    any_bytes(waiting, length);
    uint32_t answer = serialpost5_serial_restore(PARTS(&port), regs, waiting, length);
    if (length > size_in(regs)) {
        EXPECT(answer == SERIALPOST_WORD_REFUSED && is(port, &before));
        return false;
    }
    uint32_t raises = (uint32_t)has_data(port.regs, port.pos) + is_empty(port.regs);
    bool reached = run_leaves_port(regs, length);
    EXPECT(answer == raises * SERIALPOST_WORD_RAISE + (reached ? SERIALPOST_WORD_REACHABLE : 0));
    EXPECT(serialpost5_serial_line(port.regs, port.pos) == (raises > 0));
    EXPECT(memcmp(port.regs, regs, REGS) == 0 && port.pos[2] == before.pos[2] && port.pos[3] == before.pos[3]);
    EXPECT(serialpost5_serial_save(PARTS(&port), again.regs, again.waiting) == length);
    EXPECT(memcmp(again.regs, regs, REGS) == 0 && memcmp(again.waiting, waiting, length) == 0);
    return reached;
}

/* Makes a port of one of the seven sizes, or of another, which is refused. */
static void any_init(struct port port)
{
    struct serialpost_serial before = copy(port);
    uint32_t size = once_in(2) ? any_made() : once_in(2) ? any() : any() % 2100;
    uint32_t answer = serialpost5_serial_init(port.regs, port.pos, size);
    if (!is_made(size)) {
        EXPECT(answer == SERIALPOST_WORD_REFUSED && is(port, &before));
        return;
    }
    EXPECT(answer == 0 && serialpost5_serial_size(port.regs) == size && serialpost5_serial_room(port.regs, port.pos) == size);
    EXPECT(port.regs[FCR] == 0 && spares_zero(port.regs) && port.pos[2] == 0 && port.pos[3] == 0);
    EXPECT(port.regs[SIZE] == register_for(size) && memcmp(port.ring, before.ring, RING) == 0);
}

static void any_access(bool at_end)
{
    struct port port = fenced_port(at_end), kept = fenced_port(at_end);
    struct fenced input = fence(at_end);
    int reached = 0;
    for (int round = 0; round < ROUNDS; round++) {
        any_state(port);
        uint32_t size = size_in(port.regs);
        EXPECT(serialpost5_serial_size(port.regs) == size);
        EXPECT(serialpost5_serial_room(port.regs, port.pos) == (port.pos[1] < size ? size - port.pos[1] : 0));
        switch (any() % 5) {
        case 0:
            any_read(port);
            break;
        case 1:
            any_write(port);
            break;
        case 2:
            any_input(port, input);
            break;
        case 3:
            any_save(port, kept);
            break;
        default:
            reached += any_restore(port, kept, input);
            break;
        }
        if (once_in(20))
            any_init(port);
    }
    EXPECT(reached > ROUNDS / 50 && reached < ROUNDS / 10);
}

/* ---- Runs */

/* How many bytes an operation takes from the inputs. */
static size_t input_of(const uint8_t *op)
{
    return op[0] == 2 ? op[1] + 256u * op[2] : 0;
}

/* Writes a run of so many operations, seldom with a kind that there is not. Answers how many bytes its inputs have, which
 * fit a page. */
static size_t any_run(uint8_t *ops, size_t operations)
{
    size_t bytes = 0;
    any_bytes(ops, 3 * operations);
    for (uint8_t *op = ops; op < ops + 3 * operations; op += 3) {
        op[0] = (uint8_t)(once_in(100) ? any() : any() % 4);
        if (op[0] == 2) {
            op[1] %= 70;
            op[2] = (uint8_t)(bytes < 1500 && once_in(8) ? any() % 5 : 0);
            bytes += input_of(op);
        }
    }
    return bytes;
}

/* One operation of a run by the call that is for it. */
static uint32_t by_itself(struct serialpost_serial *port, const uint8_t *op, const uint8_t *input)
{
    switch (op[0]) {
    case 0:
        return serialpost5_serial_read(PARTS(port), op[1]);
    case 1:
        return serialpost5_serial_write(PARTS(port), op[1], op[2]);
    case 2:
        return serialpost5_serial_input(PARTS(port), input, input_of(op));
    default:
        return serialpost5_serial_room(port->regs, port->pos);
    }
}

static void any_play(bool at_end)
{
    struct port port = fenced_port(at_end);
    struct fenced ops = fence(at_end), inputs = fence(at_end), answers = fence(at_end);
    int played = 0;
    for (int round = 0; round < ROUNDS / 4; round++) {
        size_t operations = any() % 20, cut = once_in(8), room = once_in(8) ? any() % 20 : operations + any() % 20;
        uint8_t *run = lent(ops, 3 * operations + cut);
        size_t length = any_run(run, operations);
        if (once_in(8))
            length = any() % 200;
        const uint8_t *input = lent(inputs, length);
        uint32_t *words = lent(answers, room * sizeof *words), before[40];
        memcpy(before, words, room * sizeof *words);
        any_state(port);
        struct serialpost_serial before_run = copy(port), same = before_run;
        if (serialpost5_serial_play(PARTS(&port), run, 3 * operations + cut, input, length, words, room)) {
            for (size_t i = 0; i < operations; i++) {
                EXPECT(words[i] == by_itself(&same, run + 3 * i, input));
                input += input_of(run + 3 * i);
                before[i] = words[i];
            }
            played++;
        }
        EXPECT(is(port, &same) && spares_kept(port, &before_run));
        EXPECT(memcmp(words, before, room * sizeof *words) == 0);
    }
    EXPECT(played > ROUNDS / 16 && played < ROUNDS / 5);
}

/* ---- The clock */

static uint16_t any_clock_offset(void)
{
    switch (any() % 4) {
    case 0:
        return (uint16_t)any();
    case 1:
        return (uint16_t)(0xfdc + any() % 40);
    default:
        return (uint16_t)(any() % 9 * 4);
    }
}

static void any_clock(bool at_end)
{
    struct serialpost_clock *clock = lent(fence(at_end), sizeof *clock), before;
    uint8_t *bytes = lent(fence(at_end), 4), bytes_before[4];
    for (int round = 0; round < ROUNDS; round++) {
        any_bytes(clock, sizeof *clock);
        any_bytes(bytes, 4);
        before = *clock;
        memcpy(bytes_before, bytes, 4);
        uint64_t time = (uint64_t)any() << 40 ^ any();
        bool reads = once_in(2);
        uint32_t answer = reads ? serialpost5_clock_read(clock, any_clock_offset(), time, bytes)
                                : serialpost5_clock_write(clock, any_clock_offset(), time, bytes);
        EXPECT(answer == 0 || answer == SERIALPOST_WORD_REFUSED);
        EXPECT(clock->spare[0] == before.spare[0] && clock->spare[1] == before.spare[1]);
        bool valid = answer == 0;
        EXPECT((valid && !reads) || memcmp(clock, &before, sizeof before) == 0);
        EXPECT((valid && reads) || memcmp(bytes, bytes_before, 4) == 0);
        if (once_in(100)) {
            static const struct serialpost_clock fresh;
            serialpost5_clock_init(clock);
            EXPECT(memcmp(clock, &fresh, sizeof fresh) == 0);
        }
    }
}

/* Whether a run comes to this clock: crates/clock_saved/specs/Reachable.antt. */
static bool run_leaves_clock(const struct serialpost_clock *clock)
{
    int64_t ahead = (int64_t)((uint64_t)clock->offset_high << 32 | clock->offset_low), load = clock->load;
    return clock->mask < 2 && clock->raw_status == 0 && ahead <= load && ahead > load - 0x100000000 && clock->spare[0] == 0
           && clock->spare[1] == 0;
}

static void any_saved_clock(bool at_end)
{
    struct serialpost_clock *clock = lent(fence(at_end), sizeof *clock), *saved = lent(fence(at_end), sizeof *saved), before;
    int reached = 0;
    for (int round = 0; round < ROUNDS; round++) {
        any_bytes(clock, sizeof *clock);
        any_bytes(saved, sizeof *saved);
        if (once_in(2))
            *saved = (struct serialpost_clock){ any() % 8, any(), any() % 3, any() % 2, any() % 8, 0 - any() % 2, { 0, 0 } };
        if (once_in(8))
            saved->spare[any() % 2] = any();
        before = *saved;
        EXPECT(serialpost5_clock_restore(clock, saved) == (run_leaves_clock(&before) ? SERIALPOST_WORD_REACHABLE : 0));
        reached += run_leaves_clock(&before);
        EXPECT(memcmp(clock, &before, sizeof before) == 0 && memcmp(saved, &before, sizeof before) == 0);
        any_bytes(saved, sizeof *saved);
        serialpost5_clock_save(clock, saved);
        EXPECT(memcmp(clock, &before, sizeof before) == 0 && memcmp(saved, &before, sizeof before) == 0);
    }
    EXPECT(reached > ROUNDS / 50 && reached < ROUNDS / 4);
}

/* ---- Counters */

/* Often one of the last that a counter comes to. */
static uint64_t any_count(void)
{
    return once_in(2) ? UINT64_MAX - any() % 3 : (uint64_t)any() << 32 | any();
}

static uint64_t counted(uint64_t count, bool happened)
{
    return count + (happened && count < UINT64_MAX);
}

static void any_serial_counters(bool at_end)
{
    struct serialpost_serial_counters *counters = lent(fence(at_end), sizeof *counters);
    for (int round = 0; round < ROUNDS; round++) {
        struct serialpost_serial_counters expected = { any_count(), any_count(), any_count(), any_count() };
        *counters = expected;
        uint32_t word = any();
        if (once_in(4)) {
            serialpost5_serial_lost(counters);
            expected.lost = counted(expected.lost, true);
        } else {
            serialpost5_serial_count(counters, word);
            expected.data_reads = counted(expected.data_reads, (word & SERIALPOST_WORD_DATA_READ) != 0);
            expected.sent = counted(expected.sent, (word & SERIALPOST_WORD_SENDS) != 0);
            expected.none_left = counted(expected.none_left, (word & SERIALPOST_WORD_NONE_LEFT) != 0);
        }
        EXPECT(memcmp(counters, &expected, sizeof expected) == 0);
        if (once_in(100)) {
            static const struct serialpost_serial_counters fresh;
            serialpost5_serial_counters_init(counters);
            EXPECT(memcmp(counters, &fresh, sizeof fresh) == 0);
        }
    }
}

static void any_clock_counters(bool at_end)
{
    struct serialpost_clock_counters *counters = lent(fence(at_end), sizeof *counters);
    for (int round = 0; round < ROUNDS; round++) {
        struct serialpost_clock_counters expected = { any_count(), any_count() };
        *counters = expected;
        uint32_t word = any();
        bool refused = (word & SERIALPOST_WORD_REFUSED) != 0;
        if (once_in(2)) {
            serialpost5_clock_count_read(counters, word);
            expected.invalid_reads = counted(expected.invalid_reads, refused);
        } else {
            serialpost5_clock_count_write(counters, word);
            expected.invalid_writes = counted(expected.invalid_writes, refused);
        }
        EXPECT(memcmp(counters, &expected, sizeof expected) == 0);
        if (once_in(100)) {
            static const struct serialpost_clock_counters fresh;
            serialpost5_clock_counters_init(counters);
            EXPECT(memcmp(counters, &fresh, sizeof fresh) == 0);
        }
    }
}

int main(void)
{
    for (int at_end = 0; at_end < 2; at_end++) {
        any_access(at_end);
        any_play(at_end);
        any_clock(at_end);
        any_saved_clock(at_end);
        any_serial_counters(at_end);
        any_clock_counters(at_end);
    }
    return 0;
}
