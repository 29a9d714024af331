// The usual C loop over a fixed table (000 Figures D.4 and D.6): what the library's speed is held to.

#include <stddef.h>
#include <stdint.h>

#include "tables.h"

uint16_t reference_signature16(uint16_t seed, const uint8_t *octets, size_t length)
{
    uint16_t signature = seed;
    for (size_t i = 0; i < length; i++)
        signature = octet16(signature, octets[i]);
    return signature;
}

uint32_t reference_signature32(uint32_t seed, const uint8_t *octets, size_t length)
{
    uint32_t signature = seed;
    for (size_t i = 0; i < length; i++)
        signature = octet32(signature, octets[i]);
    return signature;
}
