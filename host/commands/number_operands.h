/* Operands that are numbers or code rates. What is wrong with them has been said. */
#ifndef COMMANDS_NUMBER_OPERANDS_H
#define COMMANDS_NUMBER_OPERANDS_H

#include <stdbool.h>
#include <stdint.h>

/* Decimal digits and nothing else, up to the largest number. */
bool take_number(const char *text, uint64_t *number);

/* A rate by its name or its number, which can be any: the library says which there are. */
bool take_rate(const char *text, uint64_t *rate);

#endif
