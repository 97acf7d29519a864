/* What each function's refusal leaves, in C: all that is lent as it was, but for a refused plan's line. Status 1 where it isn't so.
 * tools/callers builds and runs it. */
#include <inttypes.h>
#include <stdio.h>
#include <string.h>

#include "lembuya.h"

/* All that a call is lent. */
static struct lent {
    uint32_t plan[LEMBUYA_PLAN_CELLS], hub[LEMBUYA_CASCADE_CELLS];
    uint64_t told[4], answer[LEMBUYA_ANSWER_NUMBERS], answers[LEMBUYA_ANSWER_NUMBERS], end[1];
    uint64_t change[2];
    uint8_t log[16], offered[LEMBUYA_MOST_OFFERS + 1];
} lent, expected;
static int calls, wrong;

/* A call is answered by this number, and what was lent to it is as expected. */
#define IS(number, call) is(number, call, #call)
static void is(uint32_t number, uint32_t answered, const char *call)
{
    int same = memcmp(&lent, &expected, sizeof lent) == 0;
    calls++;
    if (answered == number && same)
        return;
    printf("refusals: %s: %" PRIu32 " where %" PRIu32 " is due%s\n", call, answered, number, same ? "" : ", and what was lent is not as it should be");
    memcpy(&lent, &expected, sizeof lent); /* the next call is judged by itself */
    wrong = 1;
}

static uint32_t plan_of(const char *text)
{
    return lembuya_read((const uint8_t *)text, strlen(text), lent.plan, lent.told);
}

#define FIGURES "(frame 100000)\n(overhead 1000)\n(interrupt 13000)\n"
#define TREE "(hub\n(node)\n)\n"
#define PLAN FIGURES "(strict)\n" TREE

static void plans(void)
{
    expected.told[3] = 1;
    IS(LEMBUYA_FORM, plan_of(""));
    IS(LEMBUYA_FIGURE, plan_of("(frame 1)\n"));
    expected.told[3] = 4;
    IS(LEMBUYA_FORM, plan_of(FIGURES "(framing 03)\n"));
    IS(LEMBUYA_FRAMING, plan_of(FIGURES "(framing 4)\n"));
    IS(LEMBUYA_FIGURE, plan_of(FIGURES "(framing 5)\n"));
    IS(LEMBUYA_FORM, plan_of(FIGURES "(strict 1)\n" TREE));
    expected.told[3] = 5;
    IS(LEMBUYA_LIMIT, plan_of(FIGURES "(hub\n)\n"));
    IS(LEMBUYA_FORM, plan_of(FIGURES "(strict)\n(strict)\n" TREE));
    IS(LEMBUYA_FORM, plan_of(FIGURES "(strict)\n(framing 3)\n" TREE));
    IS(LEMBUYA_FORM, plan_of(FIGURES "(framing 3)\n(strict 1)\n" TREE));
    expected.told[3] = 6;
    IS(LEMBUYA_LIMIT, plan_of(FIGURES "(framing 3)\n(hub\n)\n"));
}

/* It refuses no table, and leaves what is lent too. */
static void longest(void)
{
    static const char ring[] = "(frame 100000)\n(overhead 1000)\n(interrupt 37000)\n(framing 5)\n(hub\n(node)\n)\n";
    static uint32_t table[LEMBUYA_PLAN_CELLS];
    uint64_t told[4];
    IS(12000, lembuya_longest(lent.plan));
    IS(12000, lembuya_longest(table));
    IS(LEMBUYA_OK, lembuya_read((const uint8_t *)ring, sizeof ring - 1, table, told));
    IS(36000, lembuya_longest(table));
}

/* It refuses no table either. Without the line a high request of a node with nothing reserved is taken, and granted in class 1. */
static void strict(void)
{
    static uint32_t table[LEMBUYA_PLAN_CELLS], hub[LEMBUYA_CASCADE_CELLS];
    uint64_t told[4], answer[LEMBUYA_ANSWER_NUMBERS];
    IS(1, lembuya_strict(lent.plan));
    IS(0, lembuya_strict(table));
    IS(LEMBUYA_OK, lembuya_read((const uint8_t *)FIGURES TREE, sizeof FIGURES TREE - 1, table, told));
    IS(0, lembuya_strict(table));
    lembuya_fresh(hub);
    IS(LEMBUYA_OK, lembuya_high(table, hub, 0, 1, 12000));
    IS(LEMBUYA_GRANT, lembuya_step(table, hub, 1, answer));
    IS(LEMBUYA_NORMAL, answer[3]);
}

/* What a step tells of waits. A refused request changes no recorded time, one of the same class keeps it, and a table of 1,160 cells, as
 * they were stored before, with zeros behind it counts from 0. */
static void waits(void)
{
    enum { CELLS_BEFORE = 1160 };
    static uint32_t table[LEMBUYA_PLAN_CELLS], hub[LEMBUYA_CASCADE_CELLS], stored[LEMBUYA_CASCADE_CELLS];
    static const char two[] = FIGURES "(strict)\n(hub\n(node)\n(node)\n)\n";
    uint64_t told[4], answer[LEMBUYA_ANSWER_NUMBERS];
    IS(LEMBUYA_OK, lembuya_read((const uint8_t *)two, sizeof two - 1, table, told));
    lembuya_fresh(hub);
    IS(LEMBUYA_OK, lembuya_normal(table, hub, 5, 1, 12000));
    IS(LEMBUYA_GRANT, lembuya_step(table, hub, 6, answer));
    IS(0, answer[6]);
    IS(LEMBUYA_OK, lembuya_normal(table, hub, 100, 2, 512));
    IS(LEMBUYA_LENGTH, lembuya_normal(table, hub, 200, 2, 511));
    IS(LEMBUYA_UNRESERVED, lembuya_high(table, hub, 200, 2, 512));
    IS(LEMBUYA_OK, lembuya_normal(table, hub, 300, 2, 1000));
    memcpy(stored, hub, CELLS_BEFORE * sizeof *hub);
    IS(LEMBUYA_GRANT, lembuya_step(table, hub, 20000, answer));
    IS(13005 - 100, answer[6]);
    IS(LEMBUYA_GRANT, lembuya_step(table, stored, 20000, answer));
    IS(13005, answer[6]);
}

/* From clock 10, where node 1's request is due. */
static void events(void)
{
    IS(LEMBUYA_TIME, lembuya_normal(lent.plan, lent.hub, 9, 1, 512));
    IS(LEMBUYA_NODE, lembuya_normal(lent.plan, lent.hub, 10, 2, 512));
    IS(LEMBUYA_LENGTH, lembuya_normal(lent.plan, lent.hub, 10, 1, 511));
    IS(LEMBUYA_UNRESERVED, lembuya_high(lent.plan, lent.hub, 10, 1, 512));
    IS(LEMBUYA_DUE, lembuya_off(lent.plan, lent.hub, 11, 1));
    IS(LEMBUYA_PACKETS, lembuya_reserve(lent.plan, lent.hub, 10, 1, 65, 512));
    IS(LEMBUYA_FULL, lembuya_reserve(lent.plan, lent.hub, 10, 1, 64, 12000));
    IS(LEMBUYA_DUE, lembuya_until(lent.plan, lent.hub, 11));
}

/* A refused step writes none of its seven numbers. Quiet is no refusal and writes them, last here. */
static void steps(void)
{
    static const uint64_t quiet[LEMBUYA_ANSWER_NUMBERS] = { LEMBUYA_QUIET, 0, 0, 0, 0, 0, 0 };
    IS(LEMBUYA_TIME, lembuya_step(lent.plan, lent.hub, 9, lent.answer));
    IS(LEMBUYA_TIME, lembuya_step(lent.plan, lent.hub, UINT64_C(1000000000000001), lent.answer));
    memcpy(expected.answer, quiet, sizeof quiet);
    IS(LEMBUYA_QUIET, lembuya_step(lent.plan, lent.hub, 10, lent.answer));
}

static void lists_and_runs(void)
{
    static const uint64_t off[5] = { LEMBUYA_CALL_OFF, 10, 1, 0, 0 }, no_kind[5] = { 7, 10, 1, 0, 0 };
    IS(LEMBUYA_FORM, lembuya_list(lent.plan, lent.hub, off, 4, lent.answers, 7));
    IS(LEMBUYA_FORM, lembuya_list(lent.plan, lent.hub, no_kind, 5, lent.answers, 7));
    IS(LEMBUYA_SHORT, lembuya_list(lent.plan, lent.hub, off, 5, lent.answers, 6));
    IS(LEMBUYA_SHORT, lembuya_run((const uint8_t *)PLAN, sizeof PLAN - 1, lent.plan, lent.hub, lent.log, sizeof lent.log, lent.end));
}

/* 1 comes before 18. Offers that are answered leave the hub and the bytes behind their answers, last here: node 2 isn't there. */
static void offers(void)
{
    enum { MANY = LEMBUYA_OFFER_NUMBERS * (LEMBUYA_MOST_OFFERS + 1) };
    static const uint64_t two[2 * LEMBUYA_OFFER_NUMBERS] = { 1, 1, 512, 2, 1, 512 }, many[MANY];
    IS(LEMBUYA_FORM, lembuya_offers(lent.plan, lent.hub, two, 5, lent.offered, sizeof lent.offered));
    IS(LEMBUYA_FORM, lembuya_offers(lent.plan, lent.hub, two, 4, lent.offered, 0));
    IS(LEMBUYA_FORM, lembuya_offers(lent.plan, lent.hub, many, MANY - 1, lent.offered, 1));
    IS(LEMBUYA_SHORT, lembuya_offers(lent.plan, lent.hub, many, MANY, lent.offered, sizeof lent.offered));
    IS(LEMBUYA_SHORT, lembuya_offers(lent.plan, lent.hub, two, 6, lent.offered, 1));
    IS(LEMBUYA_SHORT, lembuya_offers(lent.plan, lent.hub, two, 3, lent.offered, 0));
    IS(LEMBUYA_OK, lembuya_offers(lent.plan, lent.hub, two, 0, lent.offered, 0));
    expected.offered[0] = LEMBUYA_OK;
    expected.offered[1] = LEMBUYA_NODE;
    IS(LEMBUYA_OK, lembuya_offers(lent.plan, lent.hub, two, 6, lent.offered, sizeof lent.offered));
}

/* The next call is to tell this change. */
static void changes(uint64_t to, uint64_t number)
{
    expected.change[0] = to;
    expected.change[1] = number;
}

/* An answer that isn't 17 leaves `change`, and none changes the hub. Of 87,000 node 1 has 6 * 13,000, which leaves 9,000 for node 2. */
static void fits(void)
{
    static uint32_t table[LEMBUYA_PLAN_CELLS], hub[LEMBUYA_CASCADE_CELLS], before[LEMBUYA_CASCADE_CELLS];
    static const char two[] = FIGURES "(hub\n(node)\n(node)\n)\n";
    uint64_t told[4];
    IS(LEMBUYA_OK, lembuya_read((const uint8_t *)two, sizeof two - 1, table, told));
    lembuya_fresh(hub);
    IS(LEMBUYA_OK, lembuya_reserve(table, hub, 0, 1, 6, 12000));
    memcpy(before, hub, sizeof hub);
    IS(LEMBUYA_OK, lembuya_fit(table, hub, 2, 1, 8000, lent.change));
    IS(LEMBUYA_OK, lembuya_fit(table, hub, 1, 0, 0, lent.change));
    IS(LEMBUYA_NODE, lembuya_fit(table, hub, 3, 65, 0, lent.change));
    IS(LEMBUYA_PACKETS, lembuya_fit(table, hub, 2, 65, 0, lent.change));
    IS(LEMBUYA_LENGTH, lembuya_fit(table, hub, 2, 64, 12001, lent.change));
    changes(LEMBUYA_FIT_PACKETS, 4);
    IS(LEMBUYA_FULL, lembuya_fit(table, hub, 2, 5, 1000, lent.change)); /* 4 * 2,000 */
    changes(LEMBUYA_FIT_PACKETS, 6);
    IS(LEMBUYA_FULL, lembuya_fit(table, hub, 1, 7, 12000, lent.change)); /* in place of its own */
    changes(LEMBUYA_FIT_BITS, 8000);
    IS(LEMBUYA_FULL, lembuya_fit(table, hub, 2, 1, 12000, lent.change));
    changes(LEMBUYA_FIT_RELEASE, 1);
    IS(LEMBUYA_FULL, lembuya_fit(table, hub, 2, 6, 12000, lent.change)); /* 6 * 1,512 are more than 9,000 */
    changes(LEMBUYA_FIT_NOTHING, 0);
    IS(LEMBUYA_FULL, lembuya_fit(table, hub, 2, 7, 12000, lent.change));
    IS(0, memcmp(hub, before, sizeof hub) != 0);
}

int main(void)
{
    memset(&lent, 0xa5, sizeof lent);
    if (plan_of(PLAN) != LEMBUYA_OK)
        return 1;
    memset(lent.told, 0xa5, sizeof lent.told);
    lembuya_fresh(lent.hub);
    if (lembuya_normal(lent.plan, lent.hub, 10, 1, 512) != LEMBUYA_OK)
        return 1;
    memcpy(&expected, &lent, sizeof lent);
    plans();
    longest();
    strict();
    waits();
    events();
    steps();
    lists_and_runs();
    offers();
    fits();
    if (!wrong)
        printf("refusals: %d calls, and what was lent is as it should be\n", calls);
    return wrong;
}
