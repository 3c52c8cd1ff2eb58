/* A shell on the console: `speed` tells the speed, `gain N` sets the gain of the control loop. */
#include <stdlib.h>
#include <string.h>
#include "rover.h"

int32_t gain = 16;
static char line[16];
static uint32_t length;

static void print(const char *text)
{
    while (*text)
        CONSOLE->DR = (uint8_t)*text++;
}

static void print_number(int32_t value)
{
    char digits[12];
    int count = 0;
    uint32_t rest = value < 0 ? 0u - (uint32_t)value : (uint32_t)value;
    do
        digits[count++] = (char)('0' + rest % 10);
    while (rest /= 10);
    if (value < 0)
        digits[count++] = '-';
    while (count)
        CONSOLE->DR = (uint8_t)digits[--count];
}

static void execute(int32_t speed)
{
    if (strcmp(line, "speed") == 0) {
        print_number(speed);
        print("\n");
    } else if (strncmp(line, "gain ", 5) == 0) {
        gain = strtol(line + 5, 0, 10);
        print("ok\n");
    } else {
        print("?\n");
    }
}

void shell_poll(int32_t speed)
{
    while (CONSOLE->SR & RECEIVED) {
        char letter = (char)CONSOLE->DR;
        if (letter == '\n') {
            line[length] = 0;
            execute(speed);
            length = 0;
        } else if (length < sizeof line - 1) {
            line[length++] = letter;
        }
    }
}
