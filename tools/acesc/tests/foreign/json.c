/* jsmn 1.1.0 (Debian's libjsmn-dev): a text from the port, and its tokens to the port. */
#define JSMN_STRICT
#define JSMN_PARENT_LINKS
#define JSMN_STATIC
#include "/usr/include/jsmn.h"
#define PORT(n) (*(volatile unsigned *)(0x40010800u + 4 * (n)))

static char text[128];
static jsmntok_t tokens[24];

int main(void)
{
    for (;;) {
        jsmn_parser parser;
        unsigned length = 0;
        while (length < sizeof text && (text[length] = (char)PORT(0)) != '\n')
            length++;
        jsmn_init(&parser);
        int count = jsmn_parse(&parser, text, length, tokens, sizeof tokens / sizeof tokens[0]);
        PORT(1) = (unsigned)count;
        for (int i = 0; i < count; i++) {
            PORT(2) = tokens[i].type;
            PORT(3) = (unsigned)tokens[i].start << 16 | (unsigned)tokens[i].end;
            PORT(4) = (unsigned)tokens[i].size << 16 | (unsigned)(tokens[i].parent & 0xFFFF);
        }
    }
}
