/* The bodies of the small C library of aces-c. Each C file that uses one gets a copy of its own, so that no call leaves its compartment. */
#include <ctype.h>
#include <stdlib.h>
#include <string.h>

int memcmp(const void *one, const void *other, size_t count)
{
    const unsigned char *p = one, *q = other;
    for (; count; count--, p++, q++)
        if (*p != *q)
            return *p - *q;
    return 0;
}

void *memchr(const void *from, int value, size_t count)
{
    const unsigned char *p = from;
    for (; count; count--, p++)
        if (*p == (unsigned char)value)
            return (void *)p;
    return 0;
}

size_t strlen(const char *text)
{
    size_t length = 0;
    while (text[length])
        length++;
    return length;
}

size_t strnlen(const char *text, size_t most)
{
    size_t length = 0;
    while (length < most && text[length])
        length++;
    return length;
}

int strcmp(const char *one, const char *other)
{
    while (*one && *one == *other) {
        one++;
        other++;
    }
    return (unsigned char)*one - (unsigned char)*other;
}

int strncmp(const char *one, const char *other, size_t most)
{
    while (most && *one && *one == *other) {
        one++;
        other++;
        most--;
    }
    return most ? (unsigned char)*one - (unsigned char)*other : 0;
}

char *strcpy(char *to, const char *from)
{
    size_t at = 0;
    do
        to[at] = from[at];
    while (from[at++]);
    return to;
}

char *strncpy(char *to, const char *from, size_t most)
{
    size_t at = 0;
    for (; at < most && from[at]; at++)
        to[at] = from[at];
    for (; at < most; at++)
        to[at] = 0;
    return to;
}

char *strcat(char *to, const char *from)
{
    size_t length = 0, at = 0;
    while (to[length])
        length++;
    do
        to[length + at] = from[at];
    while (from[at++]);
    return to;
}

char *strncat(char *to, const char *from, size_t most)
{
    size_t length = 0, at = 0;
    while (to[length])
        length++;
    for (; at < most && from[at]; at++)
        to[length + at] = from[at];
    to[length + at] = 0;
    return to;
}

char *strchr(const char *text, int letter)
{
    for (;; text++) {
        if (*text == (char)letter)
            return (char *)text;
        if (!*text)
            return 0;
    }
}

char *strrchr(const char *text, int letter)
{
    const char *found = 0;
    for (;; text++) {
        if (*text == (char)letter)
            found = text;
        if (!*text)
            return (char *)found;
    }
}

char *strstr(const char *text, const char *wanted)
{
    for (;; text++) {
        size_t at = 0;
        while (wanted[at] && text[at] == wanted[at])
            at++;
        if (!wanted[at])
            return (char *)text;
        if (!*text)
            return 0;
    }
}

static int is_among(char letter, const char *letters)
{
    for (; *letters; letters++)
        if (*letters == letter)
            return 1;
    return 0;
}

size_t strspn(const char *text, const char *letters)
{
    size_t length = 0;
    while (text[length] && is_among(text[length], letters))
        length++;
    return length;
}

size_t strcspn(const char *text, const char *letters)
{
    size_t length = 0;
    while (text[length] && !is_among(text[length], letters))
        length++;
    return length;
}

char *strpbrk(const char *text, const char *letters)
{
    for (; *text; text++)
        if (is_among(*text, letters))
            return (char *)text;
    return 0;
}

int isdigit(int letter) { return letter >= '0' && letter <= '9'; }
int isupper(int letter) { return letter >= 'A' && letter <= 'Z'; }
int islower(int letter) { return letter >= 'a' && letter <= 'z'; }
int isalpha(int letter) { return isupper(letter) || islower(letter); }
int isalnum(int letter) { return isalpha(letter) || isdigit(letter); }
int isspace(int letter) { return letter == ' ' || (letter >= 9 && letter <= 13); }
int isprint(int letter) { return letter >= ' ' && letter <= '~'; }
int ispunct(int letter) { return letter > ' ' && letter <= '~' && !isalnum(letter); }
int isxdigit(int letter) { return isdigit(letter) || (letter >= 'a' && letter <= 'f') || (letter >= 'A' && letter <= 'F'); }
int toupper(int letter) { return islower(letter) ? letter - 'a' + 'A' : letter; }
int tolower(int letter) { return isupper(letter) ? letter - 'A' + 'a' : letter; }

int abs(int value) { return value < 0 ? -value : value; }
long labs(long value) { return value < 0 ? -value : value; }
long long llabs(long long value) { return value < 0 ? -value : value; }

static int digit_of(char letter)
{
    if (isdigit(letter))
        return letter - '0';
    if (isalpha(letter))
        return tolower(letter) - 'a' + 10;
    return 99;
}

/* The number at `text` without its sign, at most `most`; `*used` is how many letters it has, 0 for none. */
static unsigned long magnitude(const char *text, int base, unsigned long most, size_t *used)
{
    unsigned long value = 0;
    size_t at = 0;
    if ((base == 0 || base == 16) && text[0] == '0' && (text[1] == 'x' || text[1] == 'X') && digit_of(text[2]) < 16) {
        base = 16;
        at = 2;
    } else if (base == 0) {
        base = text[0] == '0' ? 8 : 10;
    }
    size_t first = at;
    for (; digit_of(text[at]) < base; at++) {
        unsigned long digit = (unsigned long)digit_of(text[at]);
        if (value > (most - digit) / (unsigned long)base)
            value = most;
        else
            value = value * (unsigned long)base + digit;
    }
    *used = at > first ? at : 0;
    return value;
}

unsigned long strtoul(const char *text, char **end, int base)
{
    size_t at = 0, used;
    while (isspace(text[at]))
        at++;
    int negative = text[at] == '-';
    if (negative || text[at] == '+')
        at++;
    unsigned long value = magnitude(text + at, base, ~0ul, &used);
    if (end)
        *end = (char *)(used ? text + at + used : text);
    return negative ? 0 - value : value;
}

long strtol(const char *text, char **end, int base)
{
    size_t at = 0, used;
    while (isspace(text[at]))
        at++;
    int negative = text[at] == '-';
    if (negative || text[at] == '+')
        at++;
    unsigned long value = magnitude(text + at, base, negative ? 0x80000000ul : 0x7FFFFFFFul, &used);
    if (end)
        *end = (char *)(used ? text + at + used : text);
    return negative ? (long)(0 - value) : (long)value;
}

long atol(const char *text)
{
    size_t used, at = 0;
    while (isspace(text[at]))
        at++;
    int negative = text[at] == '-';
    if (negative || text[at] == '+')
        at++;
    unsigned long value = magnitude(text + at, 10, 0x7FFFFFFFul, &used);
    return negative ? -(long)value : (long)value;
}

int atoi(const char *text) { return (int)atol(text); }
