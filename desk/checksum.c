/* A file's checksum, as the command cksum prints it. */
#include "checksum.h"

enum { POLYNOMIAL = 0x04C11DB7, BYTES_ALL = 256 };

static uint32_t remainder_of(uint32_t byte)
{
    uint32_t remainder = byte << 24;

    for (int bit = 0; bit < 8; bit++)
        remainder = remainder << 1 ^ (remainder & UINT32_C(0x80000000) ? POLYNOMIAL : 0);
    return remainder;
}

/* The bytes, and behind them their number, low byte first, in as many bytes as it needs. */
uint32_t checksum_of(struct bytes file)
{
    uint32_t table[BYTES_ALL], sum = 0;

    for (uint32_t byte = 0; byte < BYTES_ALL; byte++)
        table[byte] = remainder_of(byte);
    for (size_t at = 0; at < file.length; at++)
        sum = sum << 8 ^ table[sum >> 24 ^ file.at[at]];
    for (size_t length = file.length; length > 0; length >>= 8)
        sum = sum << 8 ^ table[sum >> 24 ^ (length & 0xFF)];
    return ~sum;
}
