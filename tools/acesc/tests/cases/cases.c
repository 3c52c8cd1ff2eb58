/* one construct each, chosen by -DCASE=n; expected.txt has what becomes of each */
#include "../programs/chip.h"
#include <stdarg.h>
#define OUT (GPIOA->ODR)
#if CASE == 1      /* float */
float gain = 1.5f;
int main(void) { OUT = (uint32_t)(gain * (float)GPIOA->IDR); }
#elif CASE == 2    /* variable arguments */
static int sum(int n, ...) { va_list a; va_start(a, n); int s = 0; while (n--) s += va_arg(a, int); va_end(a); return s; }
int main(void) { OUT = (uint32_t)sum(2, 3, 4); }
#elif CASE == 3    /* five parameters */
__attribute__((noinline)) static uint32_t mix(uint32_t a, uint32_t b, uint32_t c, uint32_t d, uint32_t e) { return a ^ b << c ^ d << e ^ GPIOA->IDR; }
int main(void) { OUT = mix(1, 2, 3, 4, 5); }
#elif CASE == 4    /* NULL test of a callback */
static void (*cb)(uint32_t);
static void set(uint32_t v) { OUT = v; }
int main(void) { for (;;) { if (GPIOA->IDR & 1) cb = set; if (cb) cb(7); } }
#elif CASE == 5    /* linked list to NULL */
struct n { struct n *next; uint32_t v; };
static struct n c = { 0, 3 }, b = { &c, 2 }, a = { &b, 1 };
int main(void) { for (struct n *p = &a; p; p = p->next) OUT = p->v; }
#elif CASE == 6    /* end pointer */
static uint8_t buf[8];
static uint32_t total(const uint8_t *p, const uint8_t *end) { uint32_t s = 0; while (p < end) s += *p++; return s; }
int main(void) { OUT = total(buf, buf + GPIOA->IDR % 8); }
#elif CASE == 7    /* void *context */
struct led { uint32_t pin; };
static struct led led = { 5 };
static void (*fn)(void *); static void *ctx;
static void on(void *p) { OUT = 1u << ((struct led *)p)->pin; }
int main(void) { fn = on; ctx = &led; fn(ctx); }
#elif CASE == 8    /* union as a cast */
static union { uint32_t w; uint8_t b[4]; } u;
int main(void) { u.w = GPIOA->IDR; OUT = u.b[GPIOA->IDR & 3]; }
#elif CASE == 9    /* interrupt handler */
static volatile uint32_t ticks;
void TIM2_IRQHandler(void) { TIM2->SR = 0; ticks++; }
int main(void) { for (;;) OUT = ticks; }
#elif CASE == 10   /* SysTick */
int main(void) { *(volatile uint32_t *)0xE000E010u = 5; }
#elif CASE == 11   /* 64-bit division */
int main(void) { uint64_t x = (uint64_t)GPIOA->IDR << 20; OUT = (uint32_t)(x / GPIOA->IDR); }
#elif CASE == 12   /* run-time address */
int main(void) { GPIO_TypeDef *p = (GPIO_TypeDef *)(0x40010800u + 0x400u * (GPIOA->IDR & 1)); p->ODR = 1; }
#elif CASE == 13   /* struct by value */
struct s { uint32_t a, b, c; };
__attribute__((noinline)) static uint32_t f(struct s s) { return s.a + s.b + s.c + GPIOA->IDR; }
int main(void) { struct s s = { GPIOA->IDR, 2, 3 }; OUT = f(s); }
#elif CASE == 14   /* packed struct with a word at an odd place */
struct __attribute__((packed)) h { uint8_t t; uint32_t v; };
static struct h h;
int main(void) { h.v = GPIOA->IDR; OUT = h.v; }
#elif CASE == 15   /* inline assembly that matters */
int main(void) { uint32_t r; __asm volatile("rbit %0, %1" : "=r"(r) : "r"(GPIOA->IDR)); OUT = r; }
#elif CASE == 16   /* barriers and masks: left out */
int main(void) { for (;;) { __asm volatile("cpsid i"); OUT = GPIOA->IDR; __asm volatile("dsb" ::: "memory"); __asm volatile("cpsie i"); __asm volatile("wfi"); } }
#elif CASE == 17   /* a word read from bytes by a pointer cast */
static uint8_t buf[16];
int main(void) { for (int i = 0; i < 16; i++) buf[i] = (uint8_t)GPIOA->IDR; OUT = *(uint32_t *)(buf + 4 * (GPIOA->IDR & 3)); }
#elif CASE == 18   /* memcpy of a length known only at run time */
void *memcpy(void *, const void *, size_t);
static uint8_t a[16], b[16];
int main(void) { memcpy(a, b, GPIOA->IDR & 15); OUT = a[0]; }
#elif CASE == 19   /* 8-bit access to a 32-bit data register, named directly */
int main(void) { *(volatile uint8_t *)&SPI1->DR = 0x9F; OUT = *(volatile uint8_t *)&SPI1->DR; }
#elif CASE == 20   /* the same behind a pointer */
__attribute__((noinline)) static void tx(SPI_TypeDef *s, uint8_t v) { *(volatile uint8_t *)&s->DR = v; }
int main(void) { tx(SPI1, 3); }
#elif CASE == 21   /* peripheral not in the list */
int main(void) { *(volatile uint32_t *)0x40005C00u = 1; }
#elif CASE == 22   /* bit fields */
static struct { uint32_t a : 3, b : 7, c : 22; } f;
int main(void) { f.b = GPIOA->IDR; f.c += f.b; OUT = f.c; }
#elif CASE == 23   /* struct returned by value, small */
struct p { int16_t x, y; };
__attribute__((noinline)) static struct p mk(uint32_t v) { struct p p = { (int16_t)v, (int16_t)(v >> 16) }; return p; }
int main(void) { struct p p = mk(GPIOA->IDR); OUT = (uint32_t)(p.x * p.y); }
#elif CASE == 24   /* library call */
int printf(const char *, ...);
int main(void) { printf("hello %d\n", 3); }
#elif CASE == 25   /* 64-bit time stamp through functions */
__attribute__((noinline)) static uint64_t now(void) { return (uint64_t)TIM2->CNT << 16; }
int main(void) { uint64_t t = now(); while (now() - t < 1000000) ; }
#elif CASE == 26   /* container_of */
struct list { struct list *next; };
struct job { uint32_t v; struct list link; };
static struct job j = { 7, { 0 } };
int main(void) { struct list *l = &j.link; struct job *p = (struct job *)((char *)l - offsetof(struct job, link)); OUT = p->v + GPIOA->IDR; }
#elif CASE == 27   /* two dimensions and rows */
static int16_t m[4][3];
static int32_t row(const int16_t *r) { return r[0] + r[1] * r[2]; }
int main(void) { for (int i = 0; i < 12; i++) m[i / 3][i % 3] = (int16_t)GPIOA->IDR; OUT = (uint32_t)row(m[GPIOA->IDR & 3]); }
#elif CASE == 28   /* recursion */
static uint32_t fib(uint32_t n) { return n < 2 ? n : fib(n - 1) + fib(n - 2); }
int main(void) { OUT = fib(GPIOA->IDR & 7); }
#elif CASE == 29   /* values that change places in a loop */
int main(void) { uint32_t a = GPIOA->IDR, b = GPIOA->IDR, c = 1; for (int i = 0; i < 20; i++) { uint32_t t = c; c = b; b = a; a = t + (b & 1); if (i & 4) { t = b; b = a; a = t; } OUT = a; } OUT = a ^ b << 1 ^ c << 2; }
#elif CASE == 30   /* a table of pointers to peripherals and of texts */
static GPIO_TypeDef *const port[2] = { GPIOA, (GPIO_TypeDef *)0x40010820u };
static const char *const text[] = { "no", "yes", 0, "maybe" };
int main(void) { for (;;) { uint32_t i = GPIOA->IDR & 3; port[i & 1]->ODR = text[i] ? (uint32_t)text[i][0] : 0; } }
#elif CASE == 31   /* a struct with a pointer seen as void * */
struct dev { GPIO_TypeDef *port; uint32_t pin; };
static struct dev dev = { GPIOA, 5 };
static void (*fn)(void *); static void *ctx;
static void on(void *p) { struct dev *d = p; d->port->ODR = 1u << d->pin; }
int main(void) { fn = on; ctx = &dev; fn(ctx); }
#elif CASE == 32   /* heap */
void *malloc(size_t); void free(void *);
int main(void) { uint32_t *p = malloc(16); p[0] = GPIOA->IDR; OUT = p[0]; free(p); }
#elif CASE == 33   /* address of a buffer for DMA */
static uint8_t buf[16];
int main(void) { buf[0] = (uint8_t)GPIOA->IDR; GPIOA->LCKR = (uint32_t)buf; }
#elif CASE == 34   /* a struct with a pointer, read as bytes behind void * */
struct link { struct link *next; uint32_t v; };
static struct link l; static uint8_t b[8];
static void *where;
static uint32_t sum(void) { const uint8_t *p = where; uint32_t s = 0; for (int i = 0; i < 8; i++) s += p[i]; return s; }
int main(void) { where = &l; OUT = ((struct link *)where)->v; where = b; OUT = sum(); }
#elif CASE == 35   /* an attribute that is not followed */
static uint32_t tuned __attribute__((section(".tuned"))) = 3;
int main(void) { OUT = tuned + GPIOA->IDR; }
#elif CASE == 36   /* a function without a declaration */
int main(void) { OUT = (uint32_t)beep(3); }
#elif CASE == 37   /* a packed enum, and one with a sign */
enum __attribute__((packed)) small { OFF, ON }; enum sign { MINUS = -1, PLUS = 1 };
struct both { enum small a, b; enum sign c; };
static struct both x;
int main(void) { x.a = (enum small)GPIOA->IDR; x.b = ON; x.c = MINUS; OUT = x.a + x.b + (uint32_t)x.c + sizeof x + sizeof(enum small); }
#elif CASE == 38   /* a constructor */
static uint32_t begun;
__attribute__((constructor)) static void begin(void) { begun = 1; }
int main(void) { OUT = begun; }
#elif CASE == 39   /* weak and strong */
__attribute__((weak)) void tick(void) { OUT = 1; }
int main(void) { tick(); }
#elif CASE == 40   /* a value that is kept from one turn of a loop to the next */
int main(void) { uint32_t before; int first = 1; for (int i = 0; i < 6; i++) { uint32_t now = GPIOA->IDR; if (!first) OUT = before; first = 0; before = now; } }
#elif CASE == 41   /* the small C library */
#include <string.h>
#include <stdlib.h>
#include <ctype.h>
static char line[24] = "set 0x1F -12 zz";
int main(void) {
    char *end; uint32_t i = GPIOA->IDR & 3;
    OUT = (uint32_t)strlen(line + i); OUT = (uint32_t)strtol(line + 4, &end, 0); OUT = (uint32_t)(end - line); OUT = (uint32_t)atoi(line + 8);
    OUT = strcmp(line, "set") > 0; OUT = strncmp(line, "set", 3) == 0; OUT = (uint32_t)(strchr(line, 'z') - line); OUT = strstr(line, "-1") == line + 9;
    strcat(line, "!"); OUT = (uint32_t)toupper(line[i]); OUT = (uint32_t)strcspn(line, " "); OUT = memcmp(line, "set", 3) == 0; OUT = strrchr(line, '!') != 0;
}
#elif CASE == 42   /* a typedef with two meanings */
static uint32_t one(void) { typedef uint8_t t; t x = (t)GPIOA->IDR; return x; }
static uint32_t other(void) { typedef uint16_t t; t x = (t)GPIOA->IDR; return x; }
int main(void) { OUT = one() + other(); }
#elif CASE == 43   /* rotations, counts of bits, 64 bits by numbers of 64 bits */
int main(void) {
    uint32_t a = GPIOA->IDR | 1; uint64_t b = (uint64_t)a << 20 | GPIOA->IDR; int64_t c = -(int64_t)b;
    OUT = (uint32_t)__builtin_clz(a); OUT = (uint32_t)__builtin_ctz(a << 3); OUT = (uint32_t)__builtin_popcount(a); OUT = __builtin_bswap32(a);
    OUT = (uint32_t)(b % (a >> 8 | 1)); OUT = (uint32_t)(b * b >> 32); OUT = (uint32_t)(c / 1000); OUT = (uint32_t)(c % 1000); OUT = (uint32_t)(c >> (a & 63));
}
#endif
