/* Calls the conversion of the low side from C through include/reactive.h and checks 02, Ticket 2: its
 * edges, both refusals and the numbers that must stay. The losses are worked out beside the cases. */
#include <stdio.h>

#include "reactive.h"

static const uint32_t fills[] = {0, 1, 0xa5a5a5a5u, (uint32_t)-1};

struct low_side {
    int32_t active, reactive;
    uint32_t rated_power, short_circuit_voltage, no_load_current, copper_losses;
};

struct accepted {
    struct low_side l;
    uint32_t take, supply;
};

static const struct accepted accepted[] = {
    /* Half of Sn: a quarter of 12 % (13 % and 5 % squared) and 0.5 % of 40,000 kVA, over 4: 350. */
    {{3000, 4000, 400, 1300, 50, 2000}, 0, 3650},
    {{3000, -4000, 400, 1300, 50, 2000}, 4350, 0},
    {{-3000, 4000, 400, 1300, 50, 2000}, 0, 3650},
    {{-3000, -4000, 400, 1300, 50, 2000}, 4350, 0},
    /* Without energy: 50 and 0. */
    {{0, 0, 400, 1300, 50, 2000}, 50, 0},
    {{0, 0, 1, 1, 0, 0}, 0, 0},
    /* The root is 48,954 millionths: 49 and not 48, 50 and not 51, 29 and not 30. */
    {{0, 686, 19, 2625, 0, 490}, 0, 637},
    {{0, 700, 19, 2625, 0, 490}, 0, 650},
    {{0, 535, 19, 2625, 0, 490}, 0, 506},
    /* i0 alone: 0.4975 and 0.5. */
    {{0, 0, 199, 100, 1, 0}, 0, 0},
    {{0, 0, 200, 100, 1, 0}, 1, 0},
    /* Twice Sn: uk times Sn over 100 is 0.49 and 0.5; with i0 0.5 and 0.5, then 0.4 and 0.4. */
    {{30, 40, 1, 49, 0, 0}, 0, 40},
    {{30, 40, 1, 50, 0, 0}, 0, 39},
    {{30, 40, 1, 50, 200, 0}, 0, 39},
    {{30, 40, 1, 40, 160, 0}, 0, 39},
    /* Twice Sn, at the largest Sn: 4 times 10 % of 500,000 kVA, over 4: 50,000. */
    {{150000, 200000, 5000, 1000, 0, 0}, 0, 150000},
    {{-150000, -200000, 5000, 1000, 0, 0}, 250000, 0},
    /* uk is uR: the root is 0. */
    {{1000, 2000, 500, 800, 0, 4000}, 0, 2000},
    {{0, 0, 1, 4000, 0, 40}, 0, 0},
    /* The loss, 50, is more than the reactive energy, as much, and less. */
    {{0, 49, 400, 100, 50, 400}, 1, 0},
    {{0, 50, 400, 100, 50, 400}, 0, 0},
    {{0, 51, 400, 100, 50, 400}, 0, 1},
    /* The most: 40 % four times and once of 500,000 kVA, over 4, is 250,000. */
    {{0, -250000, 5000, 4000, 4000, 0}, 500000, 0},
    {{0, 250000, 5000, 4000, 4000, 0}, 0, 0},
    {{0, 250000, 5000, 1, 0, 50}, 0, 250000},
};

/* One argument of an accepted call after the other, just out of its range; then with others that are
 * implausible. */
static const struct low_side out_of_range[] = {
    {300001, 30, 1000, 1000, 10, 100},
    {-300001, 30, 1000, 1000, 10, 100},
    {20, 300001, 1000, 1000, 10, 100},
    {20, -300001, 1000, 1000, 10, 100},
    {20, 30, 0, 1000, 10, 100},
    {20, 30, 5001, 1000, 10, 100},
    {20, 30, 20000, 1000, 10, 100},
    {20, 30, 1000, 0, 10, 100},
    {20, 30, 1000, 4001, 10, 100},
    {20, 30, 1000, 1000, 4001, 100},
    {20, 30, 1000, 1000, 10, 4001},
    {INT32_MIN, 30, 1000, 1000, 10, 100},
    {20, INT32_MAX, 1000, 1000, 10, 100},
    {20, 30, UINT32_MAX, 1000, 10, 100},
    {20, 30, 1000, UINT32_MAX, 10, 100},
    {20, 30, 1000, 1000, UINT32_MAX, 100},
    {20, 30, 1000, 1000, 10, UINT32_MAX},
    {0, 0, 100, 1, 4001, 4000},
    {300000, 0, 100, 1000, 4001, 0},
};

static const struct low_side implausible[] = {
    /* The apparent power is above twice Sn. */
    {150000, 200001, 5000, 1000, 0, 0},
    {150001, 200000, 5000, 1000, 0, 0},
    {-150000, -200001, 5000, 1000, 0, 0},
    {30, 41, 1, 1000, 0, 0},
    {300000, 0, 5000, 1000, 10, 100},
    {-300000, 0, 5000, 1000, 10, 100},
    {0, 300000, 5000, 1000, 10, 100},
    {0, -300000, 5000, 1000, 10, 100},
    /* uk is below uR. */
    {1000, 2000, 500, 799, 0, 4000},
    {1000, 2000, 499, 800, 0, 4000},
    {500, 500, 19, 2578, 0, 490},
    {0, 0, 1, 4000, 0, 41},
};

static int failures;

static void expect(int ok, const char *what, size_t i)
{
    if (!ok) {
        fprintf(stderr, "%s, case %zu: not as 02, Ticket 2 says\n", what, i);
        failures++;
    }
}

static uint32_t call(struct low_side l, uint32_t *take, uint32_t *supply)
{
    return reactive_low_side(l.active, l.reactive, l.rated_power, l.short_circuit_voltage,
                             l.no_load_current, l.copper_losses, take, supply);
}

/* Calls on numbers filled with fill and its complement, the two between others. */
static void check(struct low_side l, uint32_t number, uint32_t take, uint32_t supply, const char *what,
                  size_t i)
{
    for (size_t k = 0; k < sizeof fills / sizeof fills[0]; k++) {
        uint32_t fill = fills[k];
        uint32_t words[5] = {fill, fill, ~fill, ~fill, fill};
        int kept = number != REACTIVE_ACCEPTED;

        expect(call(l, &words[1], &words[3]) == number, what, i);
        expect(words[1] == (kept ? fill : take), what, i);
        expect(words[3] == (kept ? ~fill : supply), what, i);
        expect(words[0] == fill && words[2] == ~fill && words[4] == fill, what, i);
    }
}

int main(void)
{
    const size_t accepted_count = sizeof accepted / sizeof accepted[0];
    const size_t range_count = sizeof out_of_range / sizeof out_of_range[0];
    const size_t implausible_count = sizeof implausible / sizeof implausible[0];

    for (size_t i = 0; i < accepted_count; i++)
        check(accepted[i].l, REACTIVE_ACCEPTED, accepted[i].take, accepted[i].supply, "accepted", i);
    for (size_t i = 0; i < range_count; i++)
        check(out_of_range[i], REACTIVE_FIELD_OUT_OF_RANGE, 0, 0, "out of range", i);
    for (size_t i = 0; i < implausible_count; i++)
        check(implausible[i], REACTIVE_IMPLAUSIBLE, 0, 0, "implausible", i);
    if (failures)
        return 1;
    printf("C call, low side: %zu accepted, %zu out of range, %zu implausible\n", accepted_count,
           range_count, implausible_count);
    return 0;
}
