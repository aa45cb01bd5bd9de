/* A machine moves to another host while someone types at its console: its serial port and its clock are saved, sent as
 * bytes, and restored. */
#include "expect.h"
#include <serialpost.h>
#include <string.h>

/* What goes from one host to the other. A form does not say where it ends, so its length goes with it. */
struct message {
    uint32_t port_length;
    uint8_t port[SERIALPOST_SERIAL_FORM_MOST];
    uint8_t clock[SERIALPOST_CLOCK_FORM_SIZE];
};

static struct message sent(const struct serialpost_serial *port, const struct serialpost_clock *clock)
{
    struct message message;
    struct serialpost_serial_saved saved_port;
    serialpost_serial_save(port, &saved_port);
    struct serialpost_encoded encoded = serialpost_serial_encode(&saved_port, message.port, sizeof message.port);
    EXPECT(encoded.reason == SERIALPOST_NOT_REFUSED);
    message.port_length = encoded.length;

    struct serialpost_clock saved_clock;
    serialpost_clock_save(clock, &saved_clock);
    EXPECT(serialpost_clock_encode(&saved_clock, message.clock, sizeof message.clock).reason == SERIALPOST_NOT_REFUSED);
    return message;
}

/* Answers how often to raise the port's interrupt on the new host's line. */
static uint32_t received(const struct message *message, struct serialpost_serial *port, struct serialpost_clock *clock)
{
    struct serialpost_serial_saved saved_port;
    EXPECT(message->port_length <= sizeof message->port);
    EXPECT(serialpost_serial_decode(message->port, message->port_length, &saved_port) == SERIALPOST_NOT_REFUSED);
    serialpost_serial_init(port);
    struct serialpost_restored restored = serialpost_serial_restore(port, &saved_port);
    EXPECT(!restored.refused && restored.reachable); /* as strict as can be */

    struct serialpost_clock saved_clock;
    EXPECT(serialpost_clock_decode(message->clock, sizeof message->clock, &saved_clock) == SERIALPOST_NOT_REFUSED);
    EXPECT(serialpost_clock_restore(clock, &saved_clock).reachable);
    return restored.raises;
}

int main(void)
{
    EXPECT(serialpost_version() == SERIALPOST_VERSION);
    struct serialpost_serial port;
    struct serialpost_clock clock;
    serialpost_serial_init(&port);
    serialpost_clock_init(&clock);
    serialpost_serial_write(&port, SERIALPOST_IER, 0x01);
    serialpost_serial_input(&port, (const uint8_t *)"ls -l\n", 6);
    serialpost_clock_write(&clock, SERIALPOST_RTCLR, 1000, (const uint8_t[]){ 5, 0, 0, 0 });

    struct message message = sent(&port, &clock);
    memset(&port, 0xa5, sizeof port);
    memset(&clock, 0xa5, sizeof clock);
    EXPECT(received(&message, &port, &clock) == 1);

    for (const char *byte = "ls -l\n"; *byte; byte++)
        EXPECT(serialpost_serial_read(&port, SERIALPOST_RBR).reply == *byte);
    uint8_t time[4];
    EXPECT(!serialpost_clock_read(&clock, SERIALPOST_RTCDR, 1010, time).refused && time[0] == 15);
    return 0;
}
