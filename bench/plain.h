/* A tag simulated in plain C, by the rules of docs/MODEL.md and docs/EXPLORING.md. It trusts the bundle. */
#ifndef PLAIN_H
#define PLAIN_H
#include <stddef.h>
#include <stdint.h>

/* Plays the lines `rounds` times from start 0, and answers the sum of the energies of the last round. */
uint64_t plain_play(const uint8_t *tag, size_t length, const uint8_t *lines, size_t bytes, uint32_t rounds);

/* Explores all starts `rounds` times under the plain rule, and answers the sum of the charges recorded, plus 2^32 for each point.
   No more than `most` points are recorded. */
uint64_t plain_walk(const uint8_t *tag, size_t length, uint32_t most, uint32_t rounds);

/* The window of `width` steps over `count` points that are made up: see plain.c. */
uint64_t plain_window(uint32_t count, uint16_t width);
#endif
