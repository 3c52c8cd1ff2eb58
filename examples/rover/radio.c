/* Frames of the radio: 0xA5, a length, so many bytes, and their sum. 'S' and two bytes set the speed. */
#include "rover.h"

enum state { IDLE, LENGTH, DATA, SUM };

struct frame {
    enum state state;
    uint8_t length, have, sum;
    uint8_t data[8];
};

int32_t target;
static struct frame frame;
static uint32_t dropped;

static void accept(const struct frame *f)
{
    if (f->length == 3 && f->data[0] == 'S')
        target = (int16_t)(f->data[1] | f->data[2] << 8);
    else
        dropped++;
}

static void feed(struct frame *f, uint8_t byte)
{
    switch (f->state) {
    case IDLE:
        if (byte == 0xA5)
            f->state = LENGTH;
        break;
    case LENGTH:
        f->length = byte;
        f->have = f->sum = 0;
        f->state = byte >= 1 && byte <= sizeof f->data ? DATA : IDLE;
        break;
    case DATA:
        f->data[f->have++] = byte;
        f->sum = (uint8_t)(f->sum + byte);
        if (f->have == f->length)
            f->state = SUM;
        break;
    case SUM:
        if (byte == f->sum)
            accept(f);
        else
            dropped++;
        f->state = IDLE;
        break;
    }
}

void radio_poll(void)
{
    while (RADIO->SR & RECEIVED)
        feed(&frame, (uint8_t)RADIO->DR);
}
