/* The peak stack of each call of libtablet.a: the call runs on a stack that was painted before, and the bytes that lost their
 * paint are counted. An empty call is measured first and taken off.
 *
 *   cc -O2 -Iinclude compare/stack.c target/staticlib/libtablet.a -o target/stack && target/stack
 */
#include "ashkavorz.h"

#include <stdio.h>
#include <stdlib.h>
#include <string.h>
#include <ucontext.h>

#define STACK (256 * 1024)
#define PAINT 0xA5

static uint16_t numbers[ASHKAVORZ_LIST_NUMBERS];
static uint8_t rules[ASHKAVORZ_RULE_BYTES * ASHKAVORZ_RULES_MOST];
static uint8_t table[ASHKAVORZ_RECORD_BYTES * ASHKAVORZ_WORDS_MOST];
static const uint8_t header[ASHKAVORZ_HEADER_BYTES] = {6, 0, 0, 0, 0, 10, 0, 0, 255, 0x07, 0xd0, 0x01, 0xf6};
static const char sheet[] = "6\t0.0.0.0/0\t10.0.0.0/8\t0-65535\t502-503\tpermit\n*\t0.0.0.0/0\t0.0.0.0/0\t0-65535\t0-65535\tdeny\n";
static uint32_t words;
static volatile uint32_t kept;

static void nothing(void) { kept = 0; }
static void close_(void) { kept = ashkavorz_close(16, 0, 65535).a; }
static void count(void) { kept = ashkavorz_count(16, 1, 65534).a; }
static void list(void) { kept = ashkavorz_list(16, 1, 65534, numbers, ASHKAVORZ_LIST_NUMBERS).a; }
static void step(void) { kept = ashkavorz_step((struct ashkavorz_walk){16, 1, 65534, 0}).value; }
static void check(void) { kept = ashkavorz_check(16, 1, 65534, numbers, ASHKAVORZ_LIST_NUMBERS, 30).a; }
static void compile(void) { kept = words = ashkavorz_compile(rules, sizeof rules, table, sizeof table).a; }
static void find_rule(void) { kept = ashkavorz_find_rule(rules, sizeof rules, header, sizeof header).a; }
static void find_word(void) { kept = ashkavorz_find_word(table, sizeof table, words, header, sizeof header).a; }
static void read_sheet(void) { kept = ashkavorz_read_sheet((const uint8_t *)sheet, sizeof sheet - 1, rules, sizeof rules).a; }

static ucontext_t home, away;

static size_t used(void (*call)(void))
{
    static unsigned char stack[STACK];
    size_t untouched = 0;
    memset(stack, PAINT, STACK);
    if (getcontext(&away) != 0)
        exit(2);
    away.uc_stack.ss_sp = stack;
    away.uc_stack.ss_size = STACK;
    away.uc_link = &home;
    makecontext(&away, call, 0);
    if (swapcontext(&home, &away) != 0)
        exit(2);
    while (untouched < STACK && stack[untouched] == PAINT)
        untouched++;
    return (STACK - untouched + 15) / 16 * 16;
}

int main(void)
{
    static const struct { const char *name; void (*call)(void); uint32_t answer; } calls[] = {
        {"close", close_, 1}, {"count", count, 30}, {"list", list, 30}, {"step", step, 1}, {"check", check, 1},
        {"compile", compile, 2048}, {"find_rule", find_rule, 1}, {"find_word", find_word, 1}, {"read_sheet", read_sheet, 2},
    };
    for (size_t i = 0; i < ASHKAVORZ_RULES_MOST; i++) {
        uint8_t *r = rules + ASHKAVORZ_RULE_BYTES * i;
        const uint8_t ports[8] = {0x03, 0xe8, 0x07, 0xd0, 0x01, 0xf6, 0x01, 0xf6};
        r[1] = 6;
        r[7] = 10;
        r[10] = (uint8_t)i;
        r[11] = 32;
        memcpy(r + 12, ports, sizeof ports);
    }
    size_t base = used(nothing);
    for (size_t i = 0; i < sizeof calls / sizeof calls[0]; i++) {
        printf("| %s | %zu |\n", calls[i].name, used(calls[i].call) - base);
        if (kept != calls[i].answer) {
            fprintf(stderr, "stack: %s answered %u, not %u\n", calls[i].name, (unsigned)kept, (unsigned)calls[i].answer);
            return 1;
        }
    }
    return 0;
}
