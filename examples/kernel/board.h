/* The registers of the board's devices. Each answers at its own size alone. */
#ifndef BOARD_H
#define BOARD_H
#include <stdint.h>

#define TERMINAL_DATA (*(volatile uint8_t *)0xFFF00000)
#define TERMINAL_STATUS (*(volatile uint8_t *)0xFFF00001)
#define TERMINAL_CONTROL (*(volatile uint8_t *)0xFFF00002)
#define TIMER_PERIOD (*(volatile uint32_t *)0xFFF00010)
#define TIMER_ACKNOWLEDGE (*(volatile uint32_t *)0xFFF00018)
#define POWER (*(volatile uint32_t *)0xFFF00020)
#define MEMORY_SIZE (*(volatile uint32_t *)0xFFF00024)

enum { STATUS_RECEIVED = 1, STATUS_OVERRUN = 4 };
enum { CONTROL_INTERRUPT = 1 };

#endif
