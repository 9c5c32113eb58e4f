#include <inttypes.h>

#include "mdf_conversion.h"
#include "mdf_layout.h"

static int read_linear(mdf_file *file, const mdf_block *block, mdf_conversion *conversion)
{
    const size_t fields = block->length - (size_t)(block->fields - block->bytes);
    if (mdf_little(block->fields + CC_VALUE_COUNT, 2) < 2 || fields < CC_VALUES + 2 * 8)
        return mdf_trouble(file, "conversion at %" PRIu64 ": a linear rule has two values, and this one fewer",
                           conversion->address);
    conversion->offset = mf4_bits_as_double(mdf_little(block->fields + CC_VALUES, 8));
    conversion->factor = mf4_bits_as_double(mdf_little(block->fields + CC_VALUES + 8, 8));
    return 1;
}

int mdf_read_conversion(mdf_file *file, uint64_t address, mdf_conversion *conversion)
{
    const mdf_conversion none = { .address = address, .type = CC_ONE_TO_ONE };
    mdf_block block;
    *conversion = none;
    if (address == 0)
        return 1;
    if (!mdf_find_block(file, "conversion", address, MF4_ID_CC, CC_LINKS, CC_FIELDS, &block))
        return 0;
    conversion->type = block.fields[CC_TYPE];
    return (!mdf_is_linear(conversion) || read_linear(file, &block, conversion))
        && mdf_read_text(file, "unit", mdf_link(&block, CC_UNIT), conversion->unit);
}

int mdf_is_linear(const mdf_conversion *conversion)
{
    return conversion->type == CC_LINEAR;
}

int mdf_is_applied(const mdf_conversion *conversion)
{
    return conversion->type == CC_ONE_TO_ONE || mdf_is_linear(conversion);
}

double mdf_convert(const mdf_conversion *conversion, double raw)
{
    return mdf_is_linear(conversion) ? conversion->offset + conversion->factor * raw : raw;
}

const char *mdf_conversion_name(uint8_t type)
{
    static const char *const names[] = {
        "one to one", "linear", "rational", "algebraic", "a table with interpolation", "a table", "a table of ranges",
        "numbers to texts", "ranges to texts", "texts to numbers", "texts to texts"
    };
    return type < sizeof names / sizeof names[0] ? names[type] : "of an unknown type";
}
