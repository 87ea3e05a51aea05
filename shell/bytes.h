/* Bytes of texts and recordings: the classes that the formulas' grammar has, and how a byte is shown. */
#ifndef BYTES_H
#define BYTES_H

#include <stdbool.h>

static inline bool is_blank(int byte)
{
    return byte == ' ' || byte == '\t' || byte == '\r' || byte == '\n';
}

static inline bool is_digit(int byte)
{
    return byte >= '0' && byte <= '9';
}

static inline bool is_letter(int byte)
{
    return (byte >= 'a' && byte <= 'z') || (byte >= 'A' && byte <= 'Z');
}

/* A byte as one column of the screen: nothing that a text holds can steer a terminal. */
static inline char shown_byte(char byte)
{
    bool is_plain = byte >= ' ' && byte <= '~';
    return is_plain ? byte : is_blank(byte) ? ' ' : '?';
}

#endif
