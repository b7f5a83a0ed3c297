/* The lashing check in plain doubles: what a loading computer would use in its place. */
#ifndef DOUBLES_H
#define DOUBLES_H

#include <stddef.h>
#include <stdint.h>

/* The same call as lash_check: number in the low 8 bits, second number above. */
uint64_t doubles_check(const uint8_t *sheet, size_t sheet_len, uint8_t *answer, size_t answer_len);

#endif
