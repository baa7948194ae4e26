/* SPDX-License-Identifier: Apache-2.0 OR BSD-3-Clause */
/*
 * Makes calls of each function of superio.h, as C and as C++, and compares each field of what they return and of what
 * they leave behind pointers. every_function.py makes functions.h, with a caller for each function, from superio.abi
 * and the header. It also makes the calls, which come on standard input, with what the library did through Python.
 *
 * Each struct and each string of bytes is beside a page that nobody may touch: after it or before it, as the call says.
 *
 * Prints the first ten calls that differ, how many did the same, and how many have a number that no size_t has here.
 * Exits 1 if one differs, or if there is none.
 */
#define _DEFAULT_SOURCE
#include <superio.h>

#include <stdio.h>
#include <stdlib.h>
#include <string.h>
#include <sys/mman.h>

enum { PAGE = 131072, ARGUMENTS = 8 };

static uint8_t *memory, output[4 * PAGE];
static const uint8_t *input; /* what is left of standard input */
static size_t length;        /* of the output */
static unsigned sides; /* a bit for each argument: which side of it has the guard */
static bool fits;      /* each number of the call fits its type */

/* ---- numbers, the lowest byte first, and bytes */

static uint64_t take(int size) {
    uint64_t number = 0;
    for (int i = 0; i < size; i++)
        number |= (uint64_t)*input++ << 8 * i;
    return number;
}

static size_t take_size(void) {
    uint64_t number = take(8);
    fits = fits && number <= SIZE_MAX;
    return (size_t)number;
}

static void take_bytes(void *bytes, size_t count) {
    memcpy(bytes, input, count);
    input += count;
}

static void give(uint64_t number, int size) {
    for (int i = 0; i < size; i++)
        output[length++] = (uint8_t)(number >> 8 * i);
}

static void give_bytes(const void *bytes, size_t count) {
    memcpy(output + length, bytes, count);
    length += count;
}

/* ---- arguments */

/* Nobody may touch the pages beside those of the arguments. */
static void make_memory(void) {
    memory = (uint8_t *)mmap(NULL, (2 * ARGUMENTS + 1) * PAGE, PROT_NONE, MAP_PRIVATE | MAP_ANONYMOUS, -1, 0);
    for (int page = 1; page < 2 * ARGUMENTS; page += 2)
        if (memory == MAP_FAILED || mprotect(memory + page * PAGE, PAGE, PROT_READ | PROT_WRITE) != 0)
            exit(2);
}

/* The place of an argument of so many bytes: right after a guard, or right before one. */
static void *place(int argument, size_t size) {
    return memory + (2 * argument + 1) * PAGE + (sides >> argument & 1 ? 0 : PAGE - size);
}

/* An argument of bytes. If there are none, it is NULL in some calls. */
static uint8_t *bytes_at(int argument, size_t count) {
    uint8_t *bytes = (uint8_t *)place(argument, count);
    take_bytes(bytes, count);
    return count > 0 || sides & 1 ? bytes : NULL;
}

#include "functions.h"

/* All of standard input, and how much that is. */
static const uint8_t *read_input(size_t *count) {
    uint8_t *all = NULL;
    for (size_t room = PAGE; (all = (uint8_t *)realloc(all, room)) != NULL; room *= 2) {
        *count += fread(all + *count, 1, room - *count, stdin);
        if (*count < room)
            return all;
    }
    exit(2);
}

int main(void) {
    size_t count = 0;
    unsigned long same = 0, different = 0, too_large = 0;
    make_memory();
    const uint8_t *begin = input = read_input(&count);
    for (unsigned long call = 0; input < begin + count; call++) {
        unsigned function = (unsigned)take(1);
        sides = (unsigned)take(1);
        length = 0;
        fits = true;
        CALLERS[function].make_call();
        size_t expected = (size_t)take(4);
        bool is_same = length == expected && memcmp(output, input, expected) == 0;
        input += expected;
        if (!fits)
            too_large++;
        else if (is_same)
            same++;
        else if (different++ < 10)
            printf("%s, call %lu of all, did something else\n", CALLERS[function].name, call);
    }
    printf("%lu calls did the same, %lu did not, %lu have a number that is too large\n", same, different, too_large);
    return different != 0 || same == 0;
}
