/*
 * Conversions, which make the value that a unit belongs to out of the raw one that a record has. The library gives raw
 * values. Two rules are applied here, one to one and linear; for the others a loader has to be written further.
 */
#ifndef MDF_CONVERSION_H
#define MDF_CONVERSION_H

#include "mdf_text.h"

typedef struct mdf_conversion {
    uint64_t address;      /* 0: there is none, and the raw value is the value  */
    uint8_t type;          /* as the ##CC block has it                          */
    double offset, factor; /* of a linear one: offset + factor * raw            */
    char unit[MDF_TEXT_ROOM];
} mdf_conversion;

int mdf_read_conversion(mdf_file *file, uint64_t address, mdf_conversion *conversion);

int mdf_is_linear(const mdf_conversion *conversion);

/* Whether the rule is applied here: with none, one to one and linear. */
int mdf_is_applied(const mdf_conversion *conversion);

/* The value of a raw number, where the rule is applied. */
double mdf_convert(const mdf_conversion *conversion, double raw);

/* A type in words. */
const char *mdf_conversion_name(uint8_t type);

#endif
