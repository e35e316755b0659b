/* Cases for a program that judges them apart from the library: lines that start with a letter for what they hold. */
#ifndef CASES_H
#define CASES_H

#include "making.h"

/* C: what is tried, and the number of the case. */
void write_case(const char *what);

/* N: the names of a list. */
void write_names(const struct list *list);

/* A column of numbers. */
void write_column(char letter, const uint16_t *column, size_t nodes);

/* Marks, a digit each. */
void write_marks(char letter, const uint8_t *marks, size_t nodes);

/* Bytes in hexadecimal. */
void write_bytes(char letter, const uint8_t *bytes, size_t count);

#endif
