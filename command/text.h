/* Texts of a file on standard output, so that no byte of them does anything to a terminal or to a program that reads
   them. */
#ifndef TEXT_H
#define TEXT_H

#include <stddef.h>
#include <stdint.h>

/* Each byte that is not a printing ASCII character, and the backslash, as \xNN. */
void put_printing(const uint8_t *text, size_t length);

/* The text of a URL with each byte that may not stand in one as %NN. */
void put_percent(const uint8_t *text, size_t length);

/* The text as a string of JSON, in ASCII; a byte that is not of UTF-8 stands for the character with its number. */
void put_json(const uint8_t *text, size_t length);

/* A number with a comma before each three digits, and how wide that is. */
void put_grouped(uint64_t number);
int grouped_width(uint64_t number);

/* A type by the number of its four bytes, as the library's list of boxes shows it: each that is not a printing ASCII
   character as \xNN, a backslash as it is. Answers how long the text is. */
enum { TYPE_TEXT = 4 * 4 + 1 };
int put_type(char text[TYPE_TEXT], uint64_t type);

#endif
