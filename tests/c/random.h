/* SPDX-License-Identifier: Apache-2.0 OR BSD-3-Clause */
/* Random numbers of programs that make worlds. Such a program sets the state, which is never 0, at the begin of each. */
#include <stdbool.h>
#include <stdint.h>

static uint32_t random_state;

/* A number below `bound`, by Marsaglia's xorshift. A product takes less than a remainder, most in an emulator. */
static unsigned draw(unsigned bound) {
    random_state ^= random_state << 13;
    random_state ^= random_state >> 17;
    random_state ^= random_state << 5;
    return (unsigned)((uint64_t)random_state * bound >> 32);
}

static bool once_in(unsigned times) { return draw(times) == 0; }
