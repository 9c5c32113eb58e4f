/*
 * Plain stores, as a program makes them that knows its layout and tests nothing: they stand beside the library's call that
 * writes a number. They are compiled apart, so that each is called, as the library is.
 */
#include <stdint.h>
#include <string.h>

void store_u8(uint8_t *field, uint64_t number);
void store_u16(uint8_t *field, uint64_t number);
void store_u32(uint8_t *field, uint64_t number);
void store_u64(uint8_t *field, uint64_t number);
void store_f32(uint8_t *field, uint64_t number);
void store_12_bits_from_4(uint8_t *field, uint64_t number);

void store_u8(uint8_t *field, uint64_t number) { *field = (uint8_t)number; }

void store_u16(uint8_t *field, uint64_t number)
{
    const uint16_t narrow = (uint16_t)number;
    memcpy(field, &narrow, sizeof narrow);
}

void store_u32(uint8_t *field, uint64_t number)
{
    const uint32_t narrow = (uint32_t)number;
    memcpy(field, &narrow, sizeof narrow);
}

/* A double's pattern as well. */
void store_u64(uint8_t *field, uint64_t number) { memcpy(field, &number, sizeof number); }

void store_f32(uint8_t *field, uint64_t number)
{
    double value;
    float narrow;
    memcpy(&value, &number, sizeof value);
    narrow = (float)value;
    memcpy(field, &narrow, sizeof narrow);
}

/* The low half of the first byte stays. */
void store_12_bits_from_4(uint8_t *field, uint64_t number)
{
    uint16_t pair;
    memcpy(&pair, field, sizeof pair);
    pair = (uint16_t)((pair & 0x000F) | number << 4);
    memcpy(field, &pair, sizeof pair);
}
