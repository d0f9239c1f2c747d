/* The serial port, as the routines know it. */
#ifndef UART_H
#define UART_H

void uart_write(const void *start, unsigned length);

#endif
