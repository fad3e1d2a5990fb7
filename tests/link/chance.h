/* Random numbers from a seed: the same seed makes the same run. */
#ifndef CHANCE_H
#define CHANCE_H

#include <stddef.h>
#include <stdint.h>

/* What decides the numbers to come. Set back, the same numbers come again. */
extern uint64_t chance;

uint32_t below(uint32_t limit); /* 0 to limit - 1 */
int one_in(uint32_t times);
int percent(uint32_t share);
void make_noise(void *bytes, size_t size);

#endif
