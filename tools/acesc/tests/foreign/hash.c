/* xxHash 0.8.1 (Debian's libxxhash-dev): sums of bytes from the port, of 32 and 64 bits. */
#define XXH_INLINE_ALL
#define XXH_NO_STREAM
#define XXH_NO_XXH3
#define XXH_FORCE_MEMORY_ACCESS 0
#include "/usr/include/xxhash.h"
#define PORT(n) (*(volatile unsigned *)(0x40010800u + 4 * (n)))

static unsigned char data[80];

int main(void)
{
    for (;;) {
        unsigned length = PORT(0) % sizeof data;
        for (unsigned i = 0; i < length; i++)
            data[i] = (unsigned char)PORT(0);
        PORT(1) = XXH32(data, length, 7);
        unsigned long long sum = XXH64(data, length, 9);
        PORT(2) = (unsigned)sum;
        PORT(3) = (unsigned)(sum >> 32);
    }
}
