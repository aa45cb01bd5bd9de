/*
 * Reads forms, a line for each, and answers each line with what the library makes of it:
 *
 *   DEVICE FORM [=> ..]     the form in hex, or - for no bytes
 *   DEVICE FORM => ANSWER   the state in the words of docs/REPLAY.md, of a port FCR and the size behind it; or the reason
 *
 * An empty line and a line that begins with # stay as they are, so that a file of recorded forms must come out as it
 * is. Our own reader must give the same, and a state that was read is written again as the same bytes, or where its form
 * has an older version, as the same state in the current one. Any other line ends the program with the exit status 2.
 */
#include "expect.h"
#include "forms.h"

#define LONGEST 1100

static const char *const reasons[] = { NULL, "too short", "trailing", "version", "too many" };

static unsigned long lines; /* up to the one that is being read */

static void unusable(const char *why)
{
    fflush(stdout);
    fprintf(stderr, "recorded: line %lu: %s\n", lines, why);
    exit(2);
}

/* Reads hex digits up to a space or the line's end. Answers how many bytes they are. */
static size_t bytes_of(const char *digits, uint8_t bytes[LONGEST])
{
    size_t length = strcspn(digits, " \n"), count = 0;
    if (length == 1 && digits[0] == '-')
        return 0;
    if (length > 2 * LONGEST)
        unusable("too long for a form");
    if (length == 0 || length % 2 != 0 || strspn(digits, "0123456789abcdef") < length)
        unusable("no form in hex");
    for (; 2 * count < length; count++) {
        unsigned byte;
        EXPECT(sscanf(digits + 2 * count, "%2x", &byte) == 1);
        bytes[count] = (uint8_t)byte;
    }
    return count;
}

static void print_hex(const uint8_t *bytes, size_t count)
{
    for (size_t i = 0; i < count; i++)
        printf("%02x", bytes[i]);
    if (count == 0)
        printf("-");
}

static void print_port(const uint8_t *saved, const uint8_t *waiting, uint32_t count)
{
    static const uint8_t order[] = { 0, 8, SERIALPOST_IER, SERIALPOST_IIR, SERIALPOST_LCR,
                                     SERIALPOST_LSR, SERIALPOST_MCR, SERIALPOST_MSR, SERIALPOST_SCR };
    printf("state");
    for (size_t i = 0; i < sizeof order; i++)
        printf(" %02x", saved[order[i]]);
    printf(" %u ", (unsigned)count);
    print_hex(waiting, count);
    printf(" %02x %u\n", saved[9], (unsigned)size_by(saved[15]));
}

static void print_clock(const struct serialpost_clock *clock)
{
    printf("state %08x %08x%08x %08x %08x %08x\n", (unsigned)clock->load, (unsigned)clock->offset_high,
           (unsigned)clock->offset_low, (unsigned)clock->match, (unsigned)clock->mask, (unsigned)clock->raw_status);
}

static void answer(const struct device *device, const char *digits)
{
    uint8_t form[LONGEST], again[LONGEST], as_written[LONGEST], waiting[WAITING], own_waiting[WAITING] = { 0 };
    struct serialpost_clock saved, own_saved; /* the larger of the two devices' */
    size_t length = bytes_of(digits, form);
    printf("%s ", device->name);
    print_hex(form, length);
    printf(" => ");

    memset(waiting, 0, sizeof waiting);
    uint32_t read = device->read(form, length, &saved, waiting);
    EXPECT(device->own_reader(form, length, &own_saved, own_waiting) == read);
    if (is_refused(read)) {
        EXPECT(read > 0x10000 && read <= SERIALPOST_TOO_MANY);
        printf("%s\n", reasons[read - 0x10000]);
        return;
    }
    EXPECT(memcmp(&saved, &own_saved, device->saved_size) == 0 && memcmp(waiting, own_waiting, WAITING) == 0);
    length = device->as_written(form, length, as_written);
    EXPECT(device->write(&saved, waiting, read, again, LONGEST) == length && memcmp(again, as_written, length) == 0);
    if (device == &serial_port)
        print_port((const uint8_t *)&saved, waiting, read);
    else
        print_clock(&saved);
}

static bool ends(const char *part)
{
    return strchr(part, '\n') != NULL;
}

int main(void)
{
    char line[8192];
    for (lines = 1; fgets(line, sizeof line, stdin) != NULL; lines++) {
        if (line[0] == '\n' || line[0] == '#') {
            fputs(line, stdout);
            while (!ends(line) && fgets(line, sizeof line, stdin) != NULL)
                fputs(line, stdout);
        } else if (strlen(line) == sizeof line - 1 && !ends(line))
            unusable("too long for a form");
        else if (strncmp(line, "serial ", 7) == 0)
            answer(&serial_port, line + 7);
        else if (strncmp(line, "clock ", 6) == 0)
            answer(&a_clock, line + 6);
        else
            unusable("for no device");
    }
    return 0;
}
