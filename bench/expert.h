/* The lashing check in doubles as an expert writes it. */
#ifndef EXPERT_H
#define EXPERT_H

#include <stddef.h>
#include <stdint.h>

/* The same call as lash_check: number in the low 8 bits, second number above. */
uint64_t expert_check(const uint8_t *sheet, size_t sheet_len, uint8_t *answer, size_t answer_len);

#endif
