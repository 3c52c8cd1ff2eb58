/* A small rover: a control loop, a radio and a shell, each in a file of its own. */
#ifndef ROVER_H
#define ROVER_H
#include <stdint.h>

typedef volatile uint32_t port;

struct usart {
    port SR, DR, BRR, CR1;
};
struct motor {
    port SPEED, DRIVE;
};

#define CONSOLE ((struct usart *)0x40004400u)
#define RADIO ((struct usart *)0x40013800u)
#define MOTOR ((struct motor *)0x40000400u)
#define RECEIVED 0x20u

extern int32_t target; /* the speed that was asked for; the radio writes it */
extern int32_t gain;   /* of the control loop; the shell writes it */

void radio_poll(void);
void shell_poll(int32_t speed);
#endif
