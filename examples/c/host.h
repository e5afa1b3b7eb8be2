/* The address map of a host. */
#ifndef HOST_H
#define HOST_H

#include <stdint.h>

#define HOST_RAM 0x80000000u
#define HOST_CONSOLE (*(volatile uint8_t *)0x10000000u)  /* a byte stored here is printed */
#define HOST_HALT (*(volatile uint32_t *)0x10000004u)    /* a word stored here ends the host */
#define HOST_CYCLES (*(volatile uint32_t *)0x10000008u)  /* how many ticks there were before this one */

/* The registers of the device at PCIe port `port`, 0x20000 bytes. */
#define HOST_BAR(port) (0x40000000u + (port) * 0x100000u)

/* The window of memory port `port`, counted among the memory ports, 0x1000000 bytes. */
#define HOST_WINDOW(port) (0x60000000u + (port) * 0x1000000u)

#endif
