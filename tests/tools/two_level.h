/* An image: table memory, registers and accesses. Written by tools/export. */
#ifndef IMAGE_H
#define IMAGE_H

#include <stdint.h>

#define IMAGE_TABLES_LO UINT64_C(0x1000)
#define IMAGE_TABLES_BYTES UINT64_C(0x2000)
#define IMAGE_WORDS 2
#define IMAGE_CONTEXTS 1
#define IMAGE_ACCESSES 1

/* Words of table memory, by rising addresses. Every other word is 0. */
static const uint64_t image_address[] = {
    UINT64_C(0x1004), UINT64_C(0x2004),
};
static const uint32_t image_word[] = {
    0x2001, 0x80000001,
};

/* Registers, a value for each context. */
static const uint32_t image_reg_root[] = {
    0x1000,
};

/* Accesses: the position of the context, and a value of each input. */
static const uint32_t image_access_context[] = {
    0x0,
};
static const uint32_t image_in_va[] = {
    0x401234,
};

#endif
