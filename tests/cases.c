/* Cases for a program that judges them apart from the library: lines that start with a letter for what they hold. */
#include "cases.h"

#include <stdio.h>

void write_case(const char *what)
{
    printf("C %s, CASE=%llu\n", what, (unsigned long long)group_case());
}

void write_names(const struct list *list)
{
    printf("N");
    for (unsigned v = 0; v < list->count; v++) {
        size_t length;
        const uint8_t *name = name_at(list, v, &length);
        printf(" %.*s", (int)length, (const char *)name);
    }
    printf("\n");
}

void write_column(char letter, const uint16_t *column, size_t nodes)
{
    putchar(letter);
    for (size_t i = 0; i < nodes; i++)
        printf(" %u", column[i]);
    printf("\n");
}

void write_marks(char letter, const uint8_t *marks, size_t nodes)
{
    printf("%c ", letter);
    for (size_t i = 0; i < nodes; i++)
        putchar('0' + marks[i]);
    printf("\n");
}

void write_bytes(char letter, const uint8_t *bytes, size_t count)
{
    static const char digits[] = "0123456789abcdef";
    printf("%c ", letter);
    for (size_t i = 0; i < count; i++) {
        putchar(digits[bytes[i] >> 4]);
        putchar(digits[bytes[i] & 15]);
    }
    printf("\n");
}
