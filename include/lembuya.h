/* The cascade hub: a controller that gives turns on one shared line (IEEE 802.12, demand priority).
 *
 * Every function here is proved to meet its contract (crates/lembuya/src/lib.rt), never to fault and always to end, for every content of
 * the tables and every length of the texts, lists and buffers. What a caller owes: each pointer names as many elements as said below, and
 * what one call writes to no other argument of it overlaps.
 *
 * Link with liblembuya.a ('tools/proving lembuya' writes it to crates/lembuya/out/).
 * Times are in bit times (10 ns at 100 Mbit/s), lengths in bits.
 */
#ifndef LEMBUYA_H
#define LEMBUYA_H

#include <stddef.h>
#include <stdint.h>

#ifdef __cplusplus
extern "C" {
#endif

/* The two tables that a caller lends. They may be copied, stored and moved as plain memory. A cascade's table that was stored with 1,160
 * cells, before request 1 of document 02, is copied into the first of these 1,672 with zeros behind it: the waits of requests that stood
 * at that moment are then counted from time 0. A program that was built with the header of then lends too little, 1,160 cells and six
 * numbers for an answer, and the archive writes behind them: build it anew. */
#define LEMBUYA_PLAN_CELLS 1672
#define LEMBUYA_CASCADE_CELLS 1672
/* How many numbers an answer has, a step's and in a list. */
#define LEMBUYA_ANSWER_NUMBERS 7
/* How many reservations may be offered in one call, and how many numbers an offer has. */
#define LEMBUYA_MOST_OFFERS 64
#define LEMBUYA_OFFER_NUMBERS 3

/* Numbers: 0 is done or taken; the others are those of document 01, "Where each no is said", and of document 02's requests that have
 * landed. A refusal leaves all that is lent as it was, but for a refused plan's line. */
enum {
    LEMBUYA_OK = 0,
    /* a line is not the form allowed here, its LF is missing, or the text ends early; a call of no kind in a list; a list of calls or
     * of offers that ends within one */
    LEMBUYA_FORM = 1,
    LEMBUYA_FIGURE = 2,     /* T, O or D is out of range; on the framing's line: D is too small for framing 5 */
    LEMBUYA_LIMIT = 3,      /* a limit of the tree is passed, a hub has no port, or the plan has no node */
    LEMBUYA_FRAMING = 4,    /* the framing is neither 3 nor 5 */
    LEMBUYA_TIME = 11,      /* t is above 10^15, or before the clock */
    LEMBUYA_DUE = 12,       /* an instant strictly before t is due: step first */
    LEMBUYA_NODE = 13,      /* k is 0 or above N */
    LEMBUYA_PACKETS = 14,   /* n is above 64 */
    LEMBUYA_LENGTH = 15,    /* b is not 512 to the plan's longest packet; in a reserve with n = 0: b is not 0 */
    /* high: the plan is strict and n in force at t is 0; or n in force is at least 1 and b is above the b in force */
    LEMBUYA_UNRESERVED = 16,
    LEMBUYA_FULL = 17,      /* reserve: the frame can't hold it; lembuya_fit tells what would make it fit */
    LEMBUYA_SHORT = 18      /* a lent buffer or table is too short, or there are more than 64 offers: nothing is written there */
};

/* Cases of an answer, the first of its seven numbers and what a step returns; any other is the number of the row that refused it. */
enum { LEMBUYA_TAKEN = 0, LEMBUYA_GRANT = 1, LEMBUYA_REST = 2, LEMBUYA_QUIET = 3 };

/* Classes: 1 normal, 2 high. */
enum { LEMBUYA_NORMAL = 1, LEMBUYA_HIGH = 2 };

/* Kinds of a call in a list, the first of its five numbers. */
enum {
    LEMBUYA_CALL_NORMAL = 1,
    LEMBUYA_CALL_HIGH = 2,
    LEMBUYA_CALL_OFF = 3,
    LEMBUYA_CALL_RESERVE = 4,
    LEMBUYA_CALL_UNTIL = 5,
    LEMBUYA_CALL_STEP = 6
};

/* Cases of a change that would make an offer fit, the first of its two numbers. */
enum { LEMBUYA_FIT_PACKETS = 1, LEMBUYA_FIT_BITS = 2, LEMBUYA_FIT_RELEASE = 3, LEMBUYA_FIT_NOTHING = 4 };

/* Reads the plan at the start of a text. Taken: 0, the plan's tables stand in `plan`, and `told` is nodes, hubs, the place where the
 * events start (byte) and its line number. Refused: its number, told[3] is the line, and the rest of `told` and `plan` are as they were.
 * Behind (interrupt D) the text may have one line more, (framing 3) or (framing 5), on which 1 comes before 4 and 4 before 2; without it 3
 * is meant. Just before the root's (hub, so behind any framing's line, it may have the line (strict), which decides what becomes of a high
 * request of a node with nothing reserved (lembuya_high); anywhere else, twice or with a number that line is 1. */
uint32_t lembuya_read(const uint8_t *text, size_t length, uint32_t plan[LEMBUYA_PLAN_CELLS], uint64_t told[4]);

/* The longest packet of the plan in bits: 36,000 where its text says (framing 5), else 12,000. It is answered for every content of the
 * table, and nothing is refused. */
uint64_t lembuya_longest(const uint32_t plan[LEMBUYA_PLAN_CELLS]);

/* 1 where the plan's text says (strict), else 0: whether lembuya_high refuses a node with nothing reserved by 16. It is answered for every
 * content of the table, in which any number but 0 in the line's cell is strict, and nothing is refused. */
uint32_t lembuya_strict(const uint32_t plan[LEMBUYA_PLAN_CELLS]);

/* The cascade's table before any event. It serves any plan. */
void lembuya_fresh(uint32_t cascade[LEMBUYA_CASCADE_CELLS]);

/* The five events: 0, or the number of the first row that applies, and then no cell changes. */
uint32_t lembuya_normal(const uint32_t plan[LEMBUYA_PLAN_CELLS], uint32_t cascade[LEMBUYA_CASCADE_CELLS], uint64_t t, uint64_t k, uint64_t b);
/* In a plan that isn't strict, which is the default, a high request of a node with nothing reserved in force at t (n = 0) is taken as a
 * normal one: 0, it stands as lembuya_normal's would, in place of any earlier one of its node, and is granted in class 1. It stays normal
 * if a reservation comes into force while it stands. In a strict plan it is 16. Of a node with n at least 1 it is high, or 16 where b is
 * above the b in force, in every plan. */
uint32_t lembuya_high(const uint32_t plan[LEMBUYA_PLAN_CELLS], uint32_t cascade[LEMBUYA_CASCADE_CELLS], uint64_t t, uint64_t k, uint64_t b);
uint32_t lembuya_off(const uint32_t plan[LEMBUYA_PLAN_CELLS], uint32_t cascade[LEMBUYA_CASCADE_CELLS], uint64_t t, uint64_t k);
uint32_t lembuya_reserve(const uint32_t plan[LEMBUYA_PLAN_CELLS], uint32_t cascade[LEMBUYA_CASCADE_CELLS], uint64_t t, uint64_t k, uint64_t n, uint64_t b);
uint32_t lembuya_until(const uint32_t plan[LEMBUYA_PLAN_CELLS], uint32_t cascade[LEMBUYA_CASCADE_CELLS], uint64_t t);

/* A step with bound t handles the due instant if it is strictly before t. Its answer is seven numbers: the case (also returned), time,
 * node, class, end, moves and wait; a number that its case doesn't have is 0. Refused: its number is returned, and `answer` is as it was.
 * The wait is how long the request that is granted stood: the grant's time less the time at which it was first put up. A replacing
 * request of the same class keeps that time. A change of class sets it anew, also the change at a frame's start, which is then that time
 * however much later the call comes; a high request that is taken as normal is a normal one. Behind an off or a grant the next request is
 * a new one. In a table of any content in which the recorded time is later than the grant's, the wait is 0. */
uint32_t lembuya_step(const uint32_t plan[LEMBUYA_PLAN_CELLS], uint32_t cascade[LEMBUYA_CASCADE_CELLS], uint64_t t,
                      uint64_t answer[LEMBUYA_ANSWER_NUMBERS]);

/* Many calls in one: `calls` has five numbers a call (kind, t, k, n, b; a number that its kind doesn't have is not looked at), and
 * `answers` gets seven an answer, as a step's; an event's case is 0 or its row's number. 0, or 1 (`calls` ends within a call or has a
 * call of no kind) or 18 (`answers` is shorter than seven for each call), and then nothing is done. Lengths count numbers, not bytes. */
uint32_t lembuya_list(const uint32_t plan[LEMBUYA_PLAN_CELLS], uint32_t cascade[LEMBUYA_CASCADE_CELLS], const uint64_t *calls, size_t calls_length,
                      uint64_t *answers, size_t answers_length);

/* Many reservations offered in one pass, and nothing reserved: both tables are lent for reading only. `offers` has three numbers an offer
 * (node k, n, b), and `answers` gets a byte an offer, in their order: 0, or the number that lembuya_reserve would give for it at the
 * cascade's clock (13, 14, 15 or 17; in a table of any content that no calls leave, 11 or 12 too). Each offer is answered as if alone
 * against the present table, so that it has the same answer wherever it stands, and two that fit alone may not fit together. An offer
 * stands in place of its node's latest reservation. n = 0 with b = 0 is an offer, and a node may be offered twice. 0, and the bytes behind
 * the answers are as they were; or 1 (`offers` ends within an offer), or else 18 (more than LEMBUYA_MOST_OFFERS offers, or `answers` is
 * shorter than a byte an offer), and then nothing is written. No offer is 0, also with an empty buffer. Lengths count numbers and bytes. */
uint32_t lembuya_offers(const uint32_t plan[LEMBUYA_PLAN_CELLS], const uint32_t cascade[LEMBUYA_CASCADE_CELLS], const uint64_t *offers,
                        size_t offers_length, uint8_t *answers, size_t answers_length);

/* What would make an offer fit: the smallest single change with which a reservation that is refused by 17 would be taken. Nothing is
 * reserved: both tables are lent for reading only. It returns what lembuya_offers answers this one offer of n packets of b bits for node k:
 * 0, 13, 14, 15 or 17 (in a table of any content that no calls leave, 11 or 12 too). Where that is 17, `change` is the case and its number:
 *   LEMBUYA_FIT_PACKETS  the largest lower n, 1 at least, that would be taken with the same b
 *   LEMBUYA_FIT_BITS     no lower n would be: the largest lower b, 512 at least, that would be taken with the same n
 *   LEMBUYA_FIT_RELEASE  no lower b either: another node, and if it gave up its whole reservation, the offer would be taken. Of several it
 *                        is the one that has the least n * (b + O) reserved, of equal ones the lower number
 *   LEMBUYA_FIT_NOTHING  no such node either: no single change makes it fit, and the number is 0
 * Every try stands in place of node k's own latest reservation, as the offer does: that one is never named. Nor is a node that has nothing
 * reserved. Where it returns anything but 17, `change` is as it was. In a table of any content in which D and the latest reservations are
 * more than T, as no calls leave one, a release that is named may not suffice, and may itself be refused by 17; and where D and the other
 * nodes' latest reservations alone are more, they are taken to leave 0. */
uint32_t lembuya_fit(const uint32_t plan[LEMBUYA_PLAN_CELLS], const uint32_t cascade[LEMBUYA_CASCADE_CELLS], uint64_t k, uint64_t n,
                     uint64_t b, uint64_t change[2]);

/* The whole log of a text (plan and events, of which 65,536 bytes are looked at) into a buffer. 0, `end` is its length, and the tables are
 * those behind the last event (a refused plan leaves them as they were); or 18, the log doesn't fit, and nothing is touched: not the
 * buffer, the tables or `end`. 18 bytes for each byte of the text that is looked at, and 33 at least, hold every log of it (proved:
 * crates/log_spec/proofs/LogLength.antt), and into so many a run is faster: for a shorter buffer the log is measured first. */
uint32_t lembuya_run(const uint8_t *text, size_t length, uint32_t plan[LEMBUYA_PLAN_CELLS], uint32_t cascade[LEMBUYA_CASCADE_CELLS], uint8_t *log,
                     size_t log_length, uint64_t end[1]);

#ifdef __cplusplus
}
#endif

#endif
