/* Small streams for both programs to list, alone or many in a file. */
#include "cases.h"

#include "base/text.h"

/* ---- every cut -------------------------------------------------------- */

/* From type 30: the end of an accumulation, a whole one and most of a third, other
 * frames here and there. */
static const char to_cut[] = "fffofffoofffffffffffffffffffffoffffffffff"
                             "fffffoooffffffffffffffffofffffffffffffff";
enum { TO_CUT = sizeof to_cut - 1 };

/* Cut 0 removes nothing; then come those of every length from the first place, from
 * the second, and so on. */
static uint32_t cuts(void)
{
    return 1 + TO_CUT * (TO_CUT + 1) / 2;
}

static void print_cut(struct sending *sending, uint32_t which)
{
    uint32_t first = 0;
    uint32_t length = which;
    for (; length > TO_CUT - first; first++)
        length -= TO_CUT - first;

    sending->type = 30;
    for (uint32_t place = 0; place < TO_CUT; place++)
        if (place >= first && place < first + length)
            lose_letter(sending, to_cut[place]);
        else
            send_letter(sending, to_cut[place]);
}

/* ---- refused records -------------------------------------------------- */

/* From type 33: the end of an accumulation, the next one with other frames and a
 * dropout inside. */
static const char small[] = "ffffoffFFfof";
enum { SMALL = sizeof small - 1, PLACES = SMALL + 1 };

/* Beside the records that are sent, or instead of one. */
enum { BESIDE, INSTEAD, WAYS };

/* Every form of every rule from 3 to 12. */
static uint32_t refused(void)
{
    uint32_t forms = 0;
    for (unsigned rule = FIRST_BROKEN; rule <= LATE; rule++)
        forms += forms_of(rule);
    return forms * PLACES * WAYS;
}

/* The letters of the small stream from a place up to another. */
static void send_small(struct sending *sending, uint32_t from, uint32_t to)
{
    for (uint32_t place = from; place < to && place < SMALL; place++)
        send_letter(sending, small[place]);
}

static void lose_small(struct sending *sending, uint32_t place)
{
    if (place < SMALL)
        lose_letter(sending, small[place]);
}

static void print_refused_among(struct sending *sending, uint32_t which)
{
    uint32_t way = which % WAYS;
    uint32_t place = which / WAYS % PLACES;
    uint32_t form = which / WAYS / PLACES;
    unsigned rule = FIRST_BROKEN;
    for (; form >= forms_of(rule); rule++)
        form -= forms_of(rule);

    sending->type = 33;
    send_small(sending, 0, place);
    print_refused(sending, rule, form);
    if (way == INSTEAD)
        lose_small(sending, place);
    send_small(sending, place + (way == INSTEAD), SMALL);
}

/* Two rules broken by one record, by two records one after the other, by two with
 * one between that is accepted, and by two instead of two that were sent. */
enum { AT_ONCE, IN_A_ROW, ONE_BETWEEN, INSTEAD_OF_TWO, PAIR_WAYS };

static uint32_t pairs(void)
{
    return BROKEN * BROKEN * PAIR_WAYS;
}

static void print_any_refused(struct sending *sending, unsigned rule)
{
    print_refused(sending, rule, random_below(&sending->random, forms_of(rule)));
}

static void print_pair(struct sending *sending, uint32_t which)
{
    uint32_t way = which % PAIR_WAYS;
    unsigned one = FIRST_BROKEN + which / PAIR_WAYS % BROKEN;
    unsigned other = FIRST_BROKEN + which / PAIR_WAYS / BROKEN;
    uint32_t place = random_below(&sending->random, PLACES);

    sending->type = 33;
    send_small(sending, 0, place);
    switch (way) {
    case AT_ONCE:
        print_refused_twice(sending, one, other);
        break;
    case IN_A_ROW:
        print_any_refused(sending, one);
        print_any_refused(sending, other);
        break;
    case ONE_BETWEEN:
        print_any_refused(sending, one);
        send_small(sending, place, place + 1);
        print_any_refused(sending, other);
        place += 1;
        break;
    default:
        print_any_refused(sending, one);
        lose_small(sending, place);
        print_any_refused(sending, other);
        lose_small(sending, place + 1);
        place += 2;
    }
    send_small(sending, place, SMALL);
}

/* ---- joining ---------------------------------------------------------- */

/* 01, "Joining accumulations": g at both edges of the rule, and one past each. */
enum { ONE_BELOW, LEAST, MOST, ONE_ABOVE, EDGES };

/* None between, or some. */
enum { WITHOUT, WITH, OTHERS };

static uint32_t joins(void)
{
    return TYPES * TYPES * EDGES * OTHERS;
}

/* For a type that doesn't rise the edges are those of its next round: none joins. */
static uint32_t gap(uint32_t t, uint32_t u, uint32_t edge)
{
    uint32_t rise = u > t ? u - t : TYPES + u - t;
    switch (edge) {
    case ONE_BELOW:
        return rise >= 2 ? rise - 2 : 0;
    case LEAST:
        return rise - 1;
    case MOST:
        return 34 + rise;
    default:
        return 35 + rise;
    }
}

/* Type t, then type u with a gap of g counts that weren't accepted and so many other
 * frames anywhere among these. */
static void print_join(struct sending *sending, uint32_t which)
{
    static const uint32_t some[] = {1, 2, 3, 40};
    uint32_t t = which / OTHERS / EDGES / TYPES;
    uint32_t u = which / OTHERS / EDGES % TYPES;
    uint32_t others = which % OTHERS == WITHOUT ? 0 : some[random_below(&sending->random, 4)];
    uint32_t between = gap(t, u, which / OTHERS % EDGES) + others;

    sending->type = (uint8_t)t;
    send_frames(sending, 1);
    for (; between > 0; between--)
        if (random_below(&sending->random, between) < others) {
            send_others(sending, 1);
            others--;
        } else {
            lose_others(sending, 1);
        }
    sending->type = (uint8_t)u;
    send_frames(sending, 1);
}

/* ---- burst packets ---------------------------------------------------- */

/* Every two types of burst packets after one that opens a snapshot: in one frame, with bit 6 and the
 * top bit of either's type byte clear and set; and in two, half bursts or full ones, with something
 * between them, bit 6 of the second clear or set. */
enum { NOTHING, MISSING, REAL_TIME, DUMP, MARKER, NEW_BURST, BETWEEN };
enum { IN_ONE = 2 * 2 * 2, IN_HALVES = 2 * BETWEEN, IN_FULL = BETWEEN };
enum { BURST_WAYS = IN_ONE + IN_HALVES + IN_FULL };

static uint32_t packets(void)
{
    return BURST_TYPES * BURST_TYPES * BURST_WAYS;
}

static void send_between(struct sending *sending, uint32_t between)
{
    if (between == MISSING)
        lose_others(sending, 1);
    else if (between == REAL_TIME)
        send_frames(sending, 1);
    else if (between == DUMP)
        send_dumps(sending, 1);
    else if (between != NOTHING)
        send_code(sending, between == NEW_BURST ? BIT_6 | 57 : 57, 0);
}

/* Fill stands beside a packet that has a full burst for itself. */
static void print_packets(struct sending *sending, uint32_t which)
{
    enum { FILL = 62 };
    uint8_t one = burst_type(which / BURST_WAYS / BURST_TYPES);
    uint8_t other = burst_type(which / BURST_WAYS % BURST_TYPES);
    uint32_t way = which % BURST_WAYS;

    send_frames(sending, 1);
    send_code(sending, 38, 0);
    if (way < IN_ONE) {
        uint8_t bits = way % 2 == 0 ? TOP_BIT : TOP_BIT | BIT_6;
        send_code(sending, bits | one, (uint8_t)(way / 2 << 6) | other);
    } else if (way < IN_ONE + IN_HALVES) {
        way -= IN_ONE;
        send_code(sending, one, 0);
        send_between(sending, way / 2);
        send_code(sending, way % 2 == 0 ? other : BIT_6 | other, 0);
    } else {
        send_code(sending, TOP_BIT | FILL, one);
        send_between(sending, way - IN_ONE - IN_HALVES);
        send_code(sending, TOP_BIT | other, FILL);
    }
}

/* ---- cases ------------------------------------------------------------ */

/* No case takes 200 counts, so that 1,000 lie between two. An odd number, so that a
 * kind's cases start at every slot. */
enum { APART = 1201 };

static const struct cases kinds[] = {
    {"cuts", cuts, print_cut},
    {"refused", refused, print_refused_among},
    {"pairs", pairs, print_pair},
    {"joins", joins, print_join},
    {"packets", packets, print_packets},
};
enum { KINDS = sizeof kinds / sizeof kinds[0] };

const struct cases *cases_named(const char *name)
{
    for (size_t i = 0; i < KINDS; i++)
        if (same_text(kinds[i].name, name))
            return &kinds[i];
    return NULL;
}

/* Each has random numbers of its own, so that it is the same alone. */
void print_case(const struct cases *cases, uint64_t seed, uint32_t which, uint32_t count)
{
    struct random of_case = {seed + which};
    struct sending sending;
    sending_begin(&sending, random_next(&of_case), count, 0);
    cases->print(&sending, which);
}

void print_cases(const struct cases *cases, uint64_t seed)
{
    for (uint32_t which = 0; which < cases->number(); which++)
        print_case(cases, seed, which, count_of_case(which));
}

uint32_t count_of_case(uint32_t which)
{
    return APART * which;
}

uint64_t case_of_count(uint64_t count)
{
    return count % COUNTS / APART;
}
