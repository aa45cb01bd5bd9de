/* A host that was compiled for version 4 of the interface, in which a write told of no byte that the guest threw away. It
 * must not link. */
#include <stdint.h>

uint32_t serialpost4_serial_write(uint8_t regs[16], uint32_t pos[4], uint8_t ring[1024], uint8_t offset, uint8_t value);

int main(void)
{
    static uint8_t regs[16], ring[1024];
    static uint32_t pos[4];
    return serialpost4_serial_write(regs, pos, ring, 0, 0) != 0;
}
