/* What each planted fault changes, on a port that gives some numbers. */
#include "../programs/chip.h"
#define OUT (GPIOA->ODR)

static int16_t narrow[4];
static struct pair { uint32_t a; uint8_t b[3]; } one, two;
static const uint8_t *at;
static uint8_t bytes[8] = { 9, 8, 7, 6, 5, 4, 3, 2 };

static uint32_t kind(uint32_t v)
{
    uint32_t r = 0;
    switch (v & 3) {
    case 0:
        r += 1;
    case 1:
        r += 10;
        break;
    case 2:
        r += 100;
    default:
        r += 1000;
    }
    return r;
}

int main(void)
{
    uint32_t before;
    int first = 1;
    for (int i = 0; i < 8; i++) {
        uint32_t v = GPIOA->IDR;
        narrow[i & 3] = (int16_t)v;
        OUT = (uint32_t)narrow[i & 3];
        OUT = (uint8_t)(v + 1);
        int k = i;
        OUT = (uint32_t)k++;
        OUT = (int32_t)v < 5;
        uint64_t w = (uint64_t)v + 0xFFFFFFFFu + v;
        OUT = (uint32_t)(w >> 32);
        OUT = kind(v);
        if (!first)
            OUT = before;
        first = 0;
        before = v;
        one.a = v;
        one.b[2] = (uint8_t)v;
        two = one;
        OUT = two.a + two.b[2];
        at = bytes;
        at += v & 7;
        OUT = *at++;
        OUT = (uint32_t)(at - bytes);
    }
}
