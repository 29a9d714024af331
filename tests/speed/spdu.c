// Reading an SPDU in plain C, over fixed tables and with the parameters by pointer: what the library's speed is held to.

#include "../../include/whakelouna.h"
#include "tables.h"

// 000 11.4.7: from the seed 1, over all octets ahead of the signature, and 1 for 0.
static bool holds16(const uint8_t *spdu, size_t n)
{
    uint16_t signature = 1;
    for (size_t i = 0; i < n - 2; i++)
        signature = octet16(signature, spdu[i]);
    if (signature == 0)
        signature = 1;
    return signature == (spdu[n - 2] << 8 | spdu[n - 1]);
}

static bool holds32(const uint8_t *spdu, size_t n)
{
    uint32_t signature = 1;
    for (size_t i = 0; i < n - 4; i++)
        signature = octet32(signature, spdu[i]);
    if (signature == 0)
        signature = 1;
    return signature
        == ((uint32_t)spdu[n - 4] << 24 | (uint32_t)spdu[n - 3] << 16 | (uint32_t)spdu[n - 2] << 8 | spdu[n - 1]);
}

static bool all_zero(const uint8_t *spdu, size_t n)
{
    for (size_t i = 0; i < n; i++)
        if (spdu[i] != 0)
            return false;
    return true;
}

// The port number and what follows it, in an SPDU of at least 4 octets in mode 1 and 6 in mode 2.
static const uint8_t *trailer(uint8_t mode, const uint8_t *spdu, size_t n)
{
    return spdu + n - (mode == 1 ? 4 : 6);
}

struct whakelouna_response reference_read_response(const struct whakelouna_params *params, const uint8_t *spdu, size_t n)
{
    struct whakelouna_response read = { .length = n };
    if (n != params->SPDUInLength)
        return read;
    const uint8_t *end = trailer(params->FSP_ProtMode, spdu, n);
    uint8_t status = end[1];
    read.DCount_i = status >> 5;
    read.SDset = status >> 2 & 1;
    read.DCommErr = status >> 1 & 1;
    read.DTimeout = status & 1;
    read.port_holds = end[0] == params->FSP_Port;
    read.signature_holds = params->FSP_ProtMode == 1 ? holds16(spdu, n) : holds32(spdu, n);
    read.all_zero = all_zero(spdu, n);
    return read;
}

struct whakelouna_request reference_read_request(const struct whakelouna_params *params, const uint8_t *spdu, size_t n)
{
    struct whakelouna_request read = { .length = n };
    if (n != params->SPDUOutLength)
        return read;
    const uint8_t *end = trailer(params->FSP_ProtMode, spdu, n);
    uint8_t control = end[1];
    read.MCount = control >> 5;
    read.setSD = control >> 1 & 1;
    read.ChFAckReq = control & 1;
    read.port_holds = end[0] == params->FSP_Port;
    read.signature_holds = params->FSP_ProtMode == 1 ? holds16(spdu, n) : holds32(spdu, n);
    read.all_zero = all_zero(spdu, n);
    return read;
}
