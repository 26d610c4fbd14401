/* The tokens of RFC 8259, sections 2 to 7. Each function reads on from *at and tells whether it came to the token's end. Else *at is the
 * first byte that no token goes on with, or the end, if that comes too early. */
#ifndef TOKENS_H
#define TOKENS_H

#include <stddef.h>
#include <stdint.h>

int is_digit(uint8_t byte);
void blanks(const uint8_t *text, size_t end, size_t *at);
int number(const uint8_t *text, size_t end, size_t *at);
int literal(const uint8_t *text, size_t end, size_t *at, const char *word);
int string(const uint8_t *text, size_t end, size_t *at);

#endif
