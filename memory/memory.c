/* memcpy and memset of the C standard: the two names that the compiler's back end puts in for copies and clears of many bytes. They are built
 * into libbasalekko.a, seen by nobody else, so that it leaves no name to the host. Not proved: twenty lines to read. */
#include <stddef.h>

void *memcpy(void *restrict to, const void *restrict from, size_t count);
void *memset(void *to, int byte, size_t count);

void *memcpy(void *restrict to, const void *restrict from, size_t count)
{
    unsigned char *out = to;
    const unsigned char *in = from;
    for (size_t i = 0; i < count; i++)
        out[i] = in[i];
    return to;
}

void *memset(void *to, int byte, size_t count)
{
    unsigned char *out = to;
    for (size_t i = 0; i < count; i++)
        out[i] = (unsigned char)byte;
    return to;
}
