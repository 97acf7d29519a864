/* Document 01's hall, call by call: prints its log.
 * gcc -Wall -Wextra -O2 -Iinclude examples/hall.c crates/lembuya/out/liblembuya.a -o hall */
#include <inttypes.h>
#include <stdio.h>

#include "lembuya.h"

#define N " %" PRIu64

static uint32_t plan[LEMBUYA_PLAN_CELLS], hub[LEMBUYA_CASCADE_CELLS];

/* Prints the refusal of a line, if it is one. */
static uint32_t say(uint64_t line, uint32_t number)
{
    if (number != LEMBUYA_OK)
        printf("(refused" N " %" PRIu32 ")\n", line, number);
    return number;
}

/* Makes and prints all steps strictly before t. */
static void run(uint64_t t)
{
    uint64_t a[LEMBUYA_ANSWER_NUMBERS];
    for (;;)
        switch (lembuya_step(plan, hub, t, a)) {
        case LEMBUYA_GRANT: printf("(grant" N N N N N N ")\n", a[1], a[2], a[3], a[4], a[5], a[6]); break;
        case LEMBUYA_REST: printf("(rest" N N ")\n", a[1], a[5]); break;
        default: return;
        }
}

int main(void)
{
    static const char text[] = "(frame 100000)\n(overhead 1000)\n(interrupt 13000)\n(strict)\n"
                               "(hub\n(node)\n(hub\n(node)\n(node)\n)\n(node)\n)\n";
    uint64_t told[4]; /* nodes, hubs, the place of the events and its line */
    uint32_t number = lembuya_read((const uint8_t *)text, sizeof text - 1, plan, told);
    uint64_t line = told[3];
    if (say(line, number) != LEMBUYA_OK)
        return 1;
    printf("(nodes" N " hubs" N ")\n", told[0], told[1]);
    lembuya_fresh(hub);
    say(line++, lembuya_reserve(plan, hub, 0, 3, 2, 4000));
    say(line++, lembuya_normal(plan, hub, 0, 1, 12000));
    say(line++, lembuya_normal(plan, hub, 0, 4, 6000));
    say(line++, lembuya_high(plan, hub, 0, 3, 4000));
    run(99000);
    say(line++, lembuya_normal(plan, hub, 99000, 2, 12000));
    run(100000);
    say(line++, lembuya_high(plan, hub, 100000, 3, 4000));
    say(line++, lembuya_normal(plan, hub, 100000, 1, 1000));
    run(200000);
    say(line++, lembuya_until(plan, hub, 200000));
    return 0;
}
