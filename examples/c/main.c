/* Lists an interval, compiles a rule list and looks a header up, through the C face of Ashkavorz. */
#include "ashkavorz.h"

#include <inttypes.h>
#include <stdio.h>

/* One Modbus rule, permit, and a final deny. */
static const uint8_t rules[] = {
    0, 6, 0, 0, 0, 0, 0, 10, 0, 0, 0, 8, 0x00, 0x00, 0xff, 0xff, 0x01, 0xf6, 0x01, 0xf7, 0,
    1, 0, 0, 0, 0, 0, 0, 0,  0, 0, 0, 0, 0x00, 0x00, 0xff, 0xff, 0x00, 0x00, 0xff, 0xff, 1,
};

static const uint8_t header[] = {6, 192, 168, 0, 7, 10, 1, 2, 3, 0xc0, 0x00, 0x01, 0xf7};

static int refused(const char *what, struct ashkavorz_answer answer)
{
    printf("%s: refused %" PRIu32 " with %" PRIu32 " and %" PRIu32 "\n", what, answer.no, answer.a, answer.b);
    return 1;
}

int main(void)
{
    struct ashkavorz_answer interval = ashkavorz_close(16, 999, 2001);
    if (interval.no != 0)
        return refused("close", interval);

    uint16_t list[ASHKAVORZ_LIST_NUMBERS];
    struct ashkavorz_answer words = ashkavorz_list(16, interval.a, interval.b, list, sizeof list / sizeof list[0]);
    if (words.no != 0)
        return refused("list", words);
    printf("%" PRIu32 "..%" PRIu32 ": %" PRIu32 " words\n", interval.a, interval.b, words.a);
    for (uint32_t i = 0; i < words.a; i++)
        printf("  %04X %04X\n", (unsigned)list[2 * i], (unsigned)list[2 * i + 1]);

    uint8_t table[8 * ASHKAVORZ_RECORD_BYTES];
    struct ashkavorz_answer made = ashkavorz_compile(rules, sizeof rules, table, sizeof table);
    if (made.no != 0)
        return refused("compile", made);
    printf("2 rules: %" PRIu32 " words\n", made.a);

    struct ashkavorz_answer found = ashkavorz_find_word(table, sizeof table, made.a, header, sizeof header);
    if (found.no != 0)
        return refused("find_word", found);
    if (found.a == 0)
        printf("the header finds nothing\n");
    else
        printf("the header finds record %" PRIu32 ", rule %" PRIu32 ", action %" PRIu32 "\n", found.b, found.c, found.d);
    return 0;
}
