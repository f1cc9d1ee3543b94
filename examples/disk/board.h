/* The registers of the board's devices. Each answers at its own size alone, and those of the disk only where one is
   attached. */
#ifndef BOARD_H
#define BOARD_H
#include <stdint.h>

#define TERMINAL_DATA (*(volatile uint8_t *)0xFFF00000)
#define TERMINAL_STATUS (*(volatile uint8_t *)0xFFF00001)
#define TERMINAL_CONTROL (*(volatile uint8_t *)0xFFF00002)
#define DISK_BLOCK (*(volatile uint32_t *)0xFFF00034)
#define DISK_COMMAND (*(volatile uint32_t *)0xFFF00038)         /* when it is written */
#define DISK_RESULT (*(volatile uint32_t *)0xFFF00038)          /* when it is read */
#define DISK_DATA (*(volatile uint32_t *)0xFFF0003C)

enum { STATUS_RECEIVED = 1, STATUS_OVERRUN = 4 };
enum { CONTROL_INTERRUPT = 1 };
enum { DISK_LOAD = 1, DISK_STORE = 2 };

/* start.s */
uint32_t disk_size(void);
void interrupts_off(void);
void interrupts_on(void);
void wait_for_interrupt(void);

#endif
