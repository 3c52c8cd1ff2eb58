/* The control loop: it must go on whatever the radio and the shell do. */
#include "rover.h"

static int32_t integral;

static int32_t limited(int32_t value, int32_t low, int32_t high)
{
    return value < low ? low : value > high ? high : value;
}

static int32_t step(void)
{
    int32_t speed = (int32_t)MOTOR->SPEED;
    int32_t error = target - speed;
    integral = limited(integral + error, -1000, 1000);
    MOTOR->DRIVE = (uint32_t)limited((gain * error + integral) >> 4, 0, 999);
    return speed;
}

int main(void)
{
    int32_t speed = 0;
    for (int turn = 0; turn < 10; turn++) {
        radio_poll();
        shell_poll(speed);
        speed = step();
    }
}
