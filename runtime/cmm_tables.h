/* What cmm_tables.c and cmm_runtime.c share: numbers in the bytes of an image, and where the fields of a record stand. Each offset below is of docs/FORMATS.md. */
#ifndef CMM_TABLES_H
#define CMM_TABLES_H

#include "cmm_runtime.h"

#define CMM_NO_RETURN_ADDRESS UINT32_C(0xFFFFFFFF)
#define CMM_NO_YIELD 255
#define CMM_NEVER_RETURNS 1

/* Sizes of the records of a list, and offsets within a record. */
enum {
    CMM_SAVED_SIZE = 5,   /* a saved register: register, u32 offset */
    CMM_UNWIND_SIZE = 10, /* an unwind exit: u16 continuation, u64 landing */
    CMM_SPAN_SIZE = 16,   /* a span: u64 token, u64 value */
    CMM_VARIABLE_KIND = 2, /* in a variable: its kind, behind u8 width and u8 whether it is invariant */
    CMM_CONT_CODE = 4,    /* in a continuation, behind u32 offset of its pair: u64 code for cuts, */
    CMM_CONT_COUNT = 12,  /* u8 count of parameters, */
    CMM_CONT_FIRST = 13,  /* and u16 each */
    CMM_SITE_NUMBER = 8,  /* in a site, behind u64 return address: u32 number, */
    CMM_SITE_FLAGS = 12,  /* u8 flags, */
    CMM_SITE_YIELDED = 13, /* u8 count of yielded values, */
    CMM_SITE_RESULTS = 14 /* u8 count of results, and the lists that follow */
};

/* The place of a variable: what its kind says. */
enum { CMM_NO_PLACE, CMM_IN_FRAME, CMM_IN_REGISTER };

/* The number that so many bytes spell, the lowest first. */
static inline uint64_t cmm_number(const uint8_t *at, unsigned size)
{
    uint64_t value = 0;
    for (unsigned i = 0; i < size; i++)
        value |= (uint64_t)at[i] << (8 * i);
    return value;
}

/* Which of the callee-saves registers it is, CMM_CALLEE_SAVES where it is none. */
static inline unsigned cmm_callee_saves(unsigned number)
{
    if (number == 9)
        return 0;
    return number >= 18 && number <= 27 ? number - 17 : CMM_CALLEE_SAVES;
}

/* The number of a callee-saves register. */
static inline unsigned cmm_register(unsigned index)
{
    return index == 0 ? 9 : index + 17;
}

#endif
