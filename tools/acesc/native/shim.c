/* The native side of `aces-c test`: volatile accesses of the C program come here. Without a C library: it reads the peripherals and
   their recorded words from the input, and writes each access as five words to the output. The status tells the end: 0 main returned,
   10 a load found no word, 11 the limit of accesses. */
typedef unsigned char u8;
typedef unsigned short u16;
typedef unsigned int u32;
typedef unsigned long long u64;
typedef __UINTPTR_TYPE__ address;

#if defined(__i386__)
enum { READ = 3, WRITE = 4, EXIT = 1 };
static long system_call(long number, long a, long b, long c)
{
    long result;
    __asm__ volatile("int $0x80" : "=a"(result) : "a"(number), "b"(a), "c"(b), "d"(c) : "memory");
    return result;
}
#elif defined(__x86_64__)
enum { READ = 0, WRITE = 1, EXIT = 60 };
static long system_call(long number, long a, long b, long c)
{
    long result;
    __asm__ volatile("syscall" : "=a"(result) : "a"(number), "D"(a), "S"(b), "d"(c) : "rcx", "r11", "memory");
    return result;
}
#elif defined(__aarch64__)
enum { READ = 63, WRITE = 64, EXIT = 93 };
static long system_call(long number, long a, long b, long c)
{
    register long x8 __asm__("x8") = number;
    register long x0 __asm__("x0") = a;
    register long x1 __asm__("x1") = b;
    register long x2 __asm__("x2") = c;
    __asm__ volatile("svc 0" : "+r"(x0) : "r"(x8), "r"(x1), "r"(x2) : "memory");
    return x0;
}
#else
#error "aces-c test knows processors of Intel and Arm"
#endif

enum { MOST = 100000, ROOM = 1 << 22 };
static struct { u32 base, size, count, at; const u32 *words; } peripherals[64];
static u32 peripheral_count, accesses, used;
static u32 input[ROOM], output[5 * 1024];

int fw_main(void);

static void flush(void)
{
    const char *at = (const char *)output;
    long left = 4 * (long)used;
    while (left > 0) {
        long done = system_call(WRITE, 1, (long)at, left);
        if (done <= 0)
            break;
        at += done;
        left -= done;
    }
    used = 0;
}

static void finish(int status)
{
    flush();
    for (;;)
        system_call(EXIT, status, 0, 0);
}

static int find(address at)
{
    for (u32 i = 0; i < peripheral_count; i++)
        if (at >= peripherals[i].base && at - peripherals[i].base < peripherals[i].size)
            return (int)i;
    return -1;
}

static void record(u32 writes, int i, address at, u32 width, u32 value)
{
    u32 *to = output + used;
    to[0] = writes;
    to[1] = (u32)i;
    to[2] = (u32)(at - peripherals[i].base);
    to[3] = width;
    to[4] = value;
    used += 5;
    if (used == sizeof output / sizeof output[0])
        flush();
    if (++accesses >= MOST)
        finish(11);
}

static u32 take(int i, address at, u32 width)
{
    if (peripherals[i].at == peripherals[i].count)
        finish(10);
    u32 value = peripherals[i].words[peripherals[i].at++];
    if (width < 4)
        value &= (1u << 8 * width) - 1;
    record(0, i, at, width, value);
    return value;
}

#define ACCESS(TYPE, NAME)                                                            \
    TYPE aces_load_##NAME(TYPE *at)                                                   \
    {                                                                                 \
        int i = find((address)at);                                                    \
        return i >= 0 ? (TYPE)take(i, (address)at, sizeof(TYPE)) : *at;               \
    }                                                                                 \
    void aces_store_##NAME(TYPE *at, TYPE value)                                      \
    {                                                                                 \
        int i = find((address)at);                                                    \
        if (i >= 0)                                                                   \
            record(1, i, (address)at, sizeof(TYPE), value);                           \
        else                                                                          \
            *at = value;                                                              \
    }
ACCESS(u8, i8)
ACCESS(u16, i16)
ACCESS(u32, i32)

/* What compiled code calls. */
void *memcpy(void *to, const void *from, __SIZE_TYPE__ count)
{
    for (__SIZE_TYPE__ i = 0; i < count; i++)
        ((volatile u8 *)to)[i] = ((const u8 *)from)[i];
    return to;
}

void *memmove(void *to, const void *from, __SIZE_TYPE__ count)
{
    if ((address)to <= (address)from)
        return memcpy(to, from, count);
    while (count--)
        ((volatile u8 *)to)[count] = ((const u8 *)from)[count];
    return to;
}

void *memset(void *to, int value, __SIZE_TYPE__ count)
{
    for (__SIZE_TYPE__ i = 0; i < count; i++)
        ((volatile u8 *)to)[i] = (u8)value;
    return to;
}

#if defined(__i386__)
static u64 divided(u64 n, u64 d, u64 *rest)
{
    u64 r = 0;
    for (int i = 63; i >= 0; i--) {
        u64 top = r >> 63;
        r = r << 1 | (n >> i & 1);
        n &= ~(1ull << i);
        if (top || r >= d) {
            r -= d;
            n |= 1ull << i;
        }
    }
    *rest = r;
    return n;
}
u64 __udivdi3(u64 n, u64 d) { u64 r; return divided(n, d, &r); }
u64 __umoddi3(u64 n, u64 d) { u64 r; divided(n, d, &r); return r; }
long long __divdi3(long long n, long long d)
{
    u64 r, q = divided(n < 0 ? 0 - (u64)n : (u64)n, d < 0 ? 0 - (u64)d : (u64)d, &r);
    return (long long)((n < 0) != (d < 0) ? 0 - q : q);
}
long long __moddi3(long long n, long long d)
{
    u64 r;
    divided(n < 0 ? 0 - (u64)n : (u64)n, d < 0 ? 0 - (u64)d : (u64)d, &r);
    return (long long)(n < 0 ? 0 - r : r);
}
#endif

static void begin(void)
{
    __SIZE_TYPE__ have = 0;
    for (;;) {
        long done = system_call(READ, 0, (long)((char *)input + have), (long)(sizeof input - have));
        if (done <= 0)
            break;
        have += (__SIZE_TYPE__)done;
    }
    const u32 *at = input;
    peripheral_count = *at++;
    for (u32 i = 0; i < peripheral_count; i++) {
        peripherals[i].base = *at++;
        peripherals[i].size = *at++;
        peripherals[i].count = *at++;
    }
    for (u32 i = 0; i < peripheral_count; i++) {
        peripherals[i].words = at;
        at += peripherals[i].count;
    }
}

#if defined(__i386__) || defined(__x86_64__)
__attribute__((force_align_arg_pointer))
#endif
void _start(void)
{
    begin();
    fw_main();
    finish(0);
}
