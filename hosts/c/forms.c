/*
 * Forms of states: true ones, damaged ones, and bytes of any kind. Each is read by the library and by a reader of our
 * own: both must give the same state or the same reason, and where the library refuses, what it was to write must be
 * untouched. What was read is written again, in the current version. A form and what is read from it lie in heap blocks
 * of exactly their sizes, for valgrind, and then against pages that may not be touched.
 *
 *   forms [COUNT [SEED]]
 *
 * Fewer than LEAST_COUNT are refused, since each answer must be met often, and so is what is no number: exit status 2.
 */
#include "any.h"
#include "forms.h"
#include <errno.h>

#define LONGEST 1100
#define FEW 100
#define REASONS 7
#define LEAST_COUNT 1000

/* A saved device; of a port more bytes may wait than there is room for. */
struct state {
    struct serialpost_clock saved; /* the larger of the two devices' */
    uint8_t waiting[LONGEST];
};

/* The first bytes are any; the others go on from them, to be quick. */
static void many_bytes(uint8_t *memory, size_t size)
{
    any_bytes(memory, size < FEW ? size : FEW);
    for (size_t i = FEW; i < size; i++)
        memory[i] = (uint8_t)(memory[i - FEW] + i / FEW);
}

/* ---- Where a form and a saved device lie */

struct place {
    uint8_t *form, *waiting;
    void *saved;
};

static void *block(size_t size)
{
    void *memory = malloc(size);
    EXPECT(memory != NULL);
    return memory;
}

static struct place in_blocks(const struct device *device, size_t form, size_t waiting)
{
    return (struct place){ block(form), block(waiting), block(device->saved_size) };
}

static void free_blocks(struct place place)
{
    free(place.form);
    free(place.waiting);
    free(place.saved);
}

static struct place at_fences(const struct device *device, size_t form, size_t waiting, bool at_end)
{
    static struct fenced fences[2][3];
    struct fenced *own = fences[at_end];
    if (own[0].page == NULL)
        for (int i = 0; i < 3; i++)
            own[i] = fence(at_end);
    return (struct place){ lent(own[0], form), lent(own[1], waiting), lent(own[2], device->saved_size) };
}

/* ---- Reading */

/* What the library makes of a form there. It must be what our own reader makes of it. */
static uint32_t read_in(struct place place, const struct device *device, const uint8_t *form, size_t length)
{
    struct state own;
    memcpy(place.form, form, length);
    any_bytes(place.saved, device->saved_size);
    any_bytes(place.waiting, FEW);
    memset(place.waiting + FEW, (int)any(), WAITING - FEW);
    memcpy(&own.saved, place.saved, device->saved_size);
    memcpy(own.waiting, place.waiting, WAITING);

    uint32_t answer = device->read(place.form, length, place.saved, place.waiting);
    EXPECT(answer == device->own_reader(form, length, &own.saved, own.waiting));
    EXPECT(memcmp(place.saved, &own.saved, device->saved_size) == 0);
    EXPECT(memcmp(place.waiting, own.waiting, WAITING) == 0);
    EXPECT(memcmp(place.form, form, length) == 0);
    return answer;
}

/* What was read is written again: the same bytes, or the same state in the current version. */
static void write_again(struct place place, const struct device *device, const uint8_t *form, size_t length, uint32_t count)
{
    uint8_t again[LONGEST], as_written[LONGEST + 2];
    length = device->as_written(form, length, as_written);
    uint32_t written = device->write(place.saved, place.waiting, count, again, sizeof again);
    EXPECT(written == length && memcmp(again, as_written, length) == 0);
}

static uint32_t read_everywhere(const struct device *device, const uint8_t *form, size_t length)
{
    struct place blocks = in_blocks(device, length, WAITING);
    uint32_t answer = read_in(blocks, device, form, length);
    if (!is_refused(answer))
        write_again(blocks, device, form, length, answer);
    free_blocks(blocks);
    for (int at_end = 0; at_end < 2; at_end++)
        EXPECT(read_in(at_fences(device, length, WAITING, at_end), device, form, length) == answer);
    return answer;
}

/* ---- Writing */

/* Registers that tell a size: of 64 bytes, 16, 128 and 1,024, or any other. */
static uint8_t any_size_register(void)
{
    static const uint8_t registers[] = { 0, 244, 16, 240 };
    return once_in(2) ? 0 : once_in(4) ? (uint8_t)any() : registers[any() % 4];
}

/* Any state. What is spare is mostly 0; a clock's offset often lies at an end of 33 or of 64 signed bits. */
static struct state any_state(const struct device *device)
{
    struct state state;
    any_bytes(&state.saved, sizeof state.saved);
    many_bytes(state.waiting, LONGEST);
    uint8_t *saved = (uint8_t *)&state.saved;
    size_t spare = device == &a_clock ? offsetof(struct serialpost_clock, spare) : 10;
    size_t spares = device == &a_clock ? sizeof state.saved.spare : 5;
    memset(saved + spare, 0, spares);
    if (once_in(8))
        saved[spare + any() % spares] = (uint8_t)(1 << any() % 8);
    if (device == &serial_port)
        saved[15] = any_size_register();
    if (device == &a_clock && !once_in(8)) {
        static const uint32_t low[] = { 0, UINT32_MAX };
        static const uint32_t high[] = { 0, UINT32_MAX, 1, UINT32_MAX - 1, 0x7fffffff, 0x80000000 };
        if (once_in(2))
            state.saved.offset_low = low[any() % 2];
        state.saved.offset_high = high[any() % 6];
    }
    return state;
}

/* Writes a state into `room` bytes there. If they are enough these begin with `form`, whose length is `answer`; the
 * others stay. */
static void write_in(struct place place, const struct device *device, const struct state *state, size_t count, size_t room,
                     const uint8_t *form, uint32_t answer)
{
    uint8_t expected[LONGEST];
    memcpy(place.saved, &state->saved, device->saved_size);
    memcpy(place.waiting, state->waiting, count);
    many_bytes(place.form, room);
    memcpy(expected, place.form, room);
    if (answer <= room)
        memcpy(expected, form, answer);
    EXPECT(device->write(place.saved, place.waiting, count, place.form, room) == answer);
    EXPECT(memcmp(place.form, expected, room) == 0);
}

/* How many bytes wait in a port: a few, or about as many as its size. */
static size_t any_count(const struct state *state)
{
    uint32_t size = size_by(((const uint8_t *)&state->saved)[15]);
    return once_in(2) ? any() % 20 : size - 2 + any() % 4;
}

/* A form of any state, by the library. Answers its length, or the reason why there is none. */
static uint32_t true_form(const struct device *device, uint8_t form[LONGEST])
{
    struct state state = any_state(device);
    size_t count = device == &serial_port ? any_count(&state) : 0, room = any() % (once_in(4) ? LONGEST : FEW);
    uint32_t answer = device->write(&state.saved, state.waiting, count, form, LONGEST);
    EXPECT(answer == device->own_size(&state.saved, count));

    struct place blocks = in_blocks(device, room, count);
    write_in(blocks, device, &state, count, room, form, answer);
    free_blocks(blocks);
    for (int at_end = 0; at_end < 2; at_end++)
        write_in(at_fences(device, room, count, at_end), device, &state, count, room, form, answer);
    return answer;
}

/* ---- Forms to be read */

static size_t any_bytes_at_all(uint8_t form[LONGEST])
{
    size_t length = any() % (once_in(4) ? 4 : once_in(8) ? LONGEST : FEW);
    if (!once_in(8)) {
        form[0] = (uint8_t)(any() % 5);
        form[1] = 0;
    }
    if (once_in(2))
        form[form[0] == 2 ? 12 : 14] = 0;
    return length;
}

/* Version 1 of the serial port's form, which is no longer read: its registers. */
static size_t first_version(uint8_t form[LONGEST])
{
    form[0] = 1;
    form[1] = 0;
    return 11;
}

/* Version 2, which is read and no longer written: it has neither FCR nor a size. Now and then one byte too many waits. */
static size_t second_version(uint8_t form[LONGEST])
{
    size_t count = any() % 66;
    form[0] = 2;
    form[1] = 0;
    form[11] = (uint8_t)count;
    form[12] = 0;
    return 13 + count;
}

static uint32_t some_form(const struct device *device, uint8_t form[LONGEST])
{
    if (device == &a_clock || !once_in(2))
        return true_form(device, form);
    return (uint32_t)(once_in(2) ? first_version(form) : second_version(form));
}

/* Cuts a form, lengthens it, changes one of its bytes, or a bit of how many bytes wait, or of the size, or of a clock's
 * version. */
static size_t damaged(const struct device *device, uint8_t form[LONGEST], size_t length)
{
    size_t limited = device == &serial_port && length > 14 ? 11 + any() % 3 : 0;
    switch (any() % 4) {
    case 0:
        return any() % (length + 1);
    case 1:
        return length + any() % (LONGEST - length);
    case 2:
        form[any() % (once_in(2) ? 2 : length)] = (uint8_t)any();
        return length;
    default:
        form[limited + any() % 2] ^= (uint8_t)(1 << any() % 8);
        return length;
    }
}

/* `unwritten` counts the states that have no form, by reason. */
static size_t any_form(const struct device *device, uint8_t form[LONGEST], unsigned long unwritten[REASONS])
{
    many_bytes(form, LONGEST);
    if (once_in(4))
        return any_bytes_at_all(form);
    uint32_t length = some_form(device, form);
    if (is_refused(length)) {
        unwritten[length - 0x10000]++;
        return any_bytes_at_all(form);
    }
    return once_in(3) ? length : damaged(device, form, length);
}

static void forms_of(const struct device *device, unsigned long count)
{
    unsigned long met[REASONS] = { 0 }, unwritten[REASONS] = { 0 };
    for (unsigned long i = 0; i < count; i++) {
        uint8_t form[LONGEST];
        size_t length = any_form(device, form, unwritten);
        uint32_t answer = read_everywhere(device, form, length);
        met[is_refused(answer) ? answer - 0x10000 : 0]++;
    }
    printf("%s: %lu states; too short %lu, trailing %lu, version %lu, too many %lu\n", device->name, met[0], met[1], met[2],
           met[3], met[4]);
    printf("without a form: too many %lu, spare %lu\n", unwritten[4], unwritten[6]);
    for (int reason = 0; reason < REASONS; reason++) {
        bool too_many = reason == 4 && device == &serial_port;
        EXPECT(reason < 4 || too_many ? met[reason] > count / 100 : met[reason] == 0);
        EXPECT(too_many || reason == 6 ? unwritten[reason] > count / 200 : unwritten[reason] == 0);
    }
}

/* ---- The command line */

static void unusable(const char *word, const char *why)
{
    fprintf(stderr, "forms: %s %s\nusage: forms [COUNT [SEED]], COUNT %d or more\n", word, why, LEAST_COUNT);
    exit(2);
}

static unsigned long number(const char *word)
{
    errno = 0;
    unsigned long value = strtoul(word, NULL, 10);
    if (word[0] == '\0' || word[strspn(word, "0123456789")] != '\0' || errno != 0)
        unusable(word, "is no number of 64 bits");
    return value;
}

int main(int arguments, char **argument)
{
    unsigned long count = arguments > 1 ? number(argument[1]) : 100000;
    if (count < LEAST_COUNT)
        unusable(argument[1], "forms are too few to meet each answer");
    if (arguments > 2)
        seed = number(argument[2]);
    if (arguments > 3)
        unusable(argument[3], "is one word too many");
    printf("%lu forms, seed %lu\n", count, (unsigned long)seed);
    forms_of(&serial_port, count / 2);
    forms_of(&a_clock, count / 2);
    return 0;
}
