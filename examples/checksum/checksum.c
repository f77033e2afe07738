/* The Internet checksum (RFC 1071) of a run of bytes: the context's address comes in r1, its length in r2. */
unsigned long long checksum(const unsigned char *bytes, unsigned long long length)
{
    unsigned int sum = 0;

    for (; length > 1; length -= 2, bytes += 2)
        sum += (unsigned int)bytes[0] << 8 | bytes[1];
    if (length > 0)
        sum += (unsigned int)bytes[0] << 8;
    while (sum > 0xffff)
        sum = (sum & 0xffff) + (sum >> 16);
    return ~sum & 0xffff;
}
