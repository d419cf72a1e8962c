/* Positions as text in plain C, with the C library's formats and with loops over the digits. Each function answers 0, or 1
 * where it refuses. The formats take some texts that are none, with a space or a sign for a digit. */
#ifndef PLAIN_TEXT_H
#define PLAIN_TEXT_H

#include <stddef.h>
#include <stdint.h>

uint8_t formats_write(int32_t longitude, int32_t latitude, uint8_t *text, size_t length);
uint8_t formats_read(const uint8_t *text, size_t length, int32_t position[2]);
uint8_t loops_write(int32_t longitude, int32_t latitude, uint8_t *text, size_t length);
uint8_t loops_read(const uint8_t *text, size_t length, int32_t position[2]);

#endif
