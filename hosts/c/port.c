/* The lines that the README shows: a terminal on a serial port, and a guest that echoes. */
#include <serialpost.h>
#include <stdio.h>

static void raise_interrupt(uint32_t times)
{
    (void)times; /* signal the eventfd that the hypervisor listens to so many times */
}

static void guest_writes(struct serialpost_serial *port, uint8_t offset, uint8_t value)
{
    struct serialpost_written wrote = serialpost_serial_write(port, offset, value);
    if (wrote.sends)
        putchar(wrote.byte);
    raise_interrupt(wrote.raises);
}

static void someone_types(struct serialpost_serial *port, uint8_t byte)
{
    struct serialpost_input typed = serialpost_serial_input(port, &byte, 1);
    raise_interrupt(typed.raises);
}

int main(void)
{
    if (serialpost_version() != SERIALPOST_VERSION)
        return 1;
    struct serialpost_serial port;
    serialpost_serial_init(&port);
    guest_writes(&port, SERIALPOST_THR, '>');
    for (int typed; (typed = getchar()) != EOF;) {
        someone_types(&port, (uint8_t)typed);
        guest_writes(&port, SERIALPOST_THR, serialpost_serial_read(&port, SERIALPOST_RBR).reply);
    }
    return 0;
}
