/* Calls the basic charge from C through include/reactive.h and checks 02, Ticket 3: the borders of the
 * shares, the rounding, each refusal, the charge that must stay and the places that are not read. The
 * charges are worked out beside the cases. */
#include <stdio.h>
#include <string.h>

#include "reactive.h"

#define MOST 1000000000000u /* kWh */
#define COUNT(list) (sizeof list / sizeof list[0])

enum { POINTS = 8, SHOWN = 12, PLACES = 65536 };

static const uint64_t fills[] = {0, 1, 0xa5a5a5a5a5a5a5a5u, UINT64_MAX};

struct point {
    uint64_t drawn, fed_in;
};

/* With a tariff of 600 the charge of one point is its K. */
struct weighed {
    struct point p;
    uint64_t k;
};

static const struct weighed weighed[] = {
    /* Share 0: nothing drawn, and next to nothing. */
    {{0, 1}, 0},
    {{0, MOST}, 0},
    {{1, MOST}, 0},
    /* Of 1,000, so that drawn is the share. */
    {{199, 801}, 0},
    {{200, 800}, 0},
    {{201, 799}, 1},
    {{202, 798}, 2},
    {{798, 202}, 598},
    {{799, 201}, 599},
    {{800, 200}, 600},
    {{801, 199}, 600},
    {{1000, 0}, 600},
    /* 199.9, 200.9, 201.9, 798.9 and 799.9 thousandths. */
    {{1999, 8001}, 0},
    {{2009, 7991}, 0},
    {{2019, 7981}, 1},
    {{7989, 2011}, 598},
    {{7999, 2001}, 599},
    /* The fewest kWh: a fifth, and beside it 0, 166.6 and 250; four fifths, and 750, 666.6 and 833.3. */
    {{1, 4}, 0},
    {{0, 4}, 0},
    {{1, 5}, 0},
    {{1, 3}, 50},
    {{4, 1}, 600},
    {{3, 1}, 550},
    {{4, 2}, 466},
    {{5, 1}, 600},
    /* The most kWh: a fifth, and one kWh less or more. Share 201 begins where 799 times drawn is 201
     * times fed-in, at 251,564,455,569.4; share 202, of 798 and 202, at 253,132,832,080.2. */
    {{249999999999u, MOST}, 0},
    {{250000000000u, MOST}, 0},
    {{250000000001u, MOST}, 0},
    {{251564455569u, MOST}, 0},
    {{251564455570u, MOST}, 1},
    {{253132832080u, MOST}, 1},
    {{253132832081u, MOST}, 2},
    /* Four fifths in the same way, with drawn and fed-in exchanged: there shares 799 and 798 begin. */
    {{MOST, 249999999999u}, 600},
    {{MOST, 250000000000u}, 600},
    {{MOST, 250000000001u}, 599},
    {{MOST, 251564455569u}, 599},
    {{MOST, 251564455570u}, 598},
    /* Halves, the sum of the first above 2^32, of the second the most. */
    {{4294967296u, 4294967296u}, 300},
    {{MOST, MOST}, 300},
    {{MOST - 1, MOST}, 299},
    /* Share 1,000 and 999. */
    {{1, 0}, 600},
    {{MOST, 0}, 600},
    {{MOST, 1}, 600},
};

/* Of 1,000 each, so that drawn is the share. */
struct charged {
    uint32_t fixed_tariff, points;
    uint64_t share[POINTS];
    uint64_t charge;
};

static const struct charged charged[] = {
    /* K is 1 three times: 3 times 199, 200, 399, 400, 599 and 600, over 600. */
    {199, 3, {201, 201, 201}, 0},
    {200, 3, {201, 201, 201}, 1},
    {399, 3, {201, 201, 201}, 1},
    {400, 3, {201, 201, 201}, 2},
    {599, 3, {201, 201, 201}, 2},
    {600, 3, {201, 201, 201}, 3},
    /* K is 0, 1, 100, 250, 440, 599, 600 and 600, and the charge their sum. */
    {600, 1, {150}, 0},
    {600, 2, {150, 201}, 1},
    {600, 3, {150, 201, 300}, 101},
    {600, 4, {150, 201, 300, 450}, 351},
    {600, 5, {150, 201, 300, 450, 640}, 791},
    {600, 6, {150, 201, 300, 450, 640, 799}, 1390},
    {600, 7, {150, 201, 300, 450, 640, 799, 800}, 1990},
    {600, 8, {150, 201, 300, 450, 640, 799, 800, 1000}, 2590},
    /* 12,345,678 times 2,590 is 31,975,306,020, over 600 it is 53,292,176.7. */
    {12345678, 8, {150, 201, 300, 450, 640, 799, 800, 1000}, 53292176},
    /* K is 600, 300 and 0, in either order. */
    {600, 3, {1000, 500, 0}, 900},
    {600, 3, {0, 500, 1000}, 900},
    /* The most: 8 times the tariff; K 599 eight times is 4,792, and 479,200,000,000 over 600 is
     * 798,666,666.6; 99,999,999 times 599 over 600 is 99,833,332.3, and 100,000,000 over 600 is
     * 166,666.6. */
    {100000000, 8, {1000, 1000, 1000, 1000, 1000, 1000, 1000, 1000}, 800000000},
    {100000000, 8, {799, 799, 799, 799, 799, 799, 799, 799}, 798666666},
    {99999999, 1, {799}, 99833332},
    {100000000, 1, {201}, 166666},
    /* 599, 600 and 8 over 600; no tariff. */
    {1, 1, {799}, 0},
    {1, 1, {800}, 1},
    {1, 8, {201, 201, 201, 201, 201, 201, 201, 201}, 0},
    {0, 8, {1000, 1000, 1000, 1000, 1000, 1000, 1000, 1000}, 0},
};

/* A point that is turned away, wherever it stands. */
static const struct point out_of_range[] = {
    {0, 0},
    {MOST + 1, 0},
    {0, MOST + 1},
    {MOST + 1, 1},
    {1, MOST + 1},
    {MOST + 1, MOST},
    {MOST, MOST + 1},
    {MOST + 1, MOST + 1},
    /* In range if cut to 32 or 63 bits; of the last three the sum is 0 in 64 bits. */
    {(uint64_t)1 << 41 | 500, 500},
    {500, (uint64_t)1 << 41 | 500},
    {(uint64_t)1 << 63 | 500, 500},
    {500, (uint64_t)1 << 63 | 500},
    {UINT64_MAX, 1},
    {1, UINT64_MAX},
    {(uint64_t)1 << 63, (uint64_t)1 << 63},
};

static const uint32_t tariffs_out_of_range[] = {
    100000001, (uint32_t)1 << 27, 0x80000000u, 0x80000258u, UINT32_MAX,
};

/* 1 and 8 if cut to 8, 16 and 31 bits are among them. */
static const uint32_t counts_out_of_range[] = {
    0, 9, 10, 255, 256, 257, 264, 65536, 65537, 65544, 0x80000000u, 0x80000001u, UINT32_MAX,
};

/* What may stand past the count: a point that would be charged, and points that would be turned away. */
static const struct point past[] = {
    {1, 0}, {0, 0}, {MOST + 1, 0}, {0, MOST + 1}, {UINT64_MAX, UINT64_MAX},
};

/* What is lent is the front of these. */
static uint64_t drawn[PLACES], fed_in[PLACES];
static int failures;

static void put(size_t from, size_t to, struct point p)
{
    for (size_t i = from; i < to; i++) {
        drawn[i] = p.drawn;
        fed_in[i] = p.fed_in;
    }
}

struct arguments {
    uint32_t fixed_tariff, points;
    size_t drawn_places, fed_in_places;
};

static void expect(int ok, const char *what, size_t i)
{
    /* One wrong number can fail most of the calls. */
    if (!ok && failures++ < 20)
        fprintf(stderr, "%s, case %zu: not as 02, Ticket 3 says\n", what, i);
}

static uint32_t call(struct arguments a, uint64_t *charge)
{
    return reactive_basic_charge(a.fixed_tariff, a.points, drawn, a.drawn_places, fed_in, a.fed_in_places,
                                 charge);
}

/* Calls on a charge filled with fill, between two others. The energies stay in any case. */
static void check(struct arguments a, uint32_t number, uint64_t charge, const char *what, size_t i)
{
    uint64_t kept_drawn[SHOWN], kept_fed_in[SHOWN];

    memcpy(kept_drawn, drawn, sizeof kept_drawn);
    memcpy(kept_fed_in, fed_in, sizeof kept_fed_in);
    for (size_t k = 0; k < COUNT(fills); k++) {
        uint64_t fill = fills[k];
        uint64_t words[3] = {~fill, fill, ~fill};

        expect(call(a, &words[1]) == number, what, i);
        expect(words[1] == (number == REACTIVE_ACCEPTED ? charge : fill), what, i);
        expect(words[0] == ~fill && words[2] == ~fill, what, i);
    }
    expect(memcmp(kept_drawn, drawn, sizeof kept_drawn) == 0, what, i);
    expect(memcmp(kept_fed_in, fed_in, sizeof kept_fed_in) == 0, what, i);
}

static void refuse(struct arguments a, const char *what, size_t i)
{
    check(a, REACTIVE_CHARGE_OUT_OF_RANGE, 0, what, i);
}

/* Of the points that are put: the charge, whatever stands past the count and however many places are
 * there, and none if there are fewer. */
static void accept(uint32_t fixed_tariff, uint32_t points, uint64_t charge, const char *what, size_t i)
{
    const size_t enough[] = {points, points + 1, POINTS, 256, PLACES};

    for (size_t k = 0; k < COUNT(past); k++) {
        put(points, SHOWN, past[k]);
        for (size_t m = 0; m < COUNT(enough); m++)
            for (size_t n = 0; n < COUNT(enough); n++)
                check((struct arguments){fixed_tariff, points, enough[m], enough[n]}, REACTIVE_ACCEPTED,
                      charge, what, i);
    }
    for (size_t few = 0; few < points; few++) {
        refuse((struct arguments){fixed_tariff, points, few, few}, what, i);
        refuse((struct arguments){fixed_tariff, points, few, PLACES}, what, i);
        refuse((struct arguments){fixed_tariff, points, PLACES, few}, what, i);
    }
}

/* 02's rule for K, over the whole table. */
static void check_every_share(void)
{
    for (uint64_t share = 0; share <= 1000; share++) {
        uint64_t k = share <= 200 ? 0 : share >= 800 ? 600 : share - 200;

        put(0, 1, (struct point){share, 1000 - share});
        accept(600, 1, k, "share", share);
    }
}

static void check_charges(void)
{
    for (size_t i = 0; i < COUNT(weighed); i++) {
        put(0, 1, weighed[i].p);
        accept(600, 1, weighed[i].k, "K", i);
    }
    for (size_t i = 0; i < COUNT(charged); i++) {
        for (size_t k = 0; k < charged[i].points; k++)
            put(k, k + 1, (struct point){charged[i].share[k], 1000 - charged[i].share[k]});
        accept(charged[i].fixed_tariff, charged[i].points, charged[i].charge, "charge", i);
    }
    /* The largest numbers at eight points: half of eight tariffs. */
    put(0, POINTS, (struct point){MOST, MOST});
    accept(100000000, POINTS, 400000000, "the most", 0);
}

/* All other points and arguments are in range, and so is what stands past the count. */
static void check_refusals(void)
{
    const struct point right = {500, 500};

    put(0, PLACES, right);
    for (size_t i = 0; i < COUNT(counts_out_of_range); i++)
        refuse((struct arguments){600, counts_out_of_range[i], PLACES, PLACES}, "count", i);
    refuse((struct arguments){600, 0, 0, 0}, "no points and no places", 0);
    for (uint32_t points = 1; points <= POINTS; points++) {
        for (size_t i = 0; i < COUNT(tariffs_out_of_range); i++)
            refuse((struct arguments){tariffs_out_of_range[i], points, points, points}, "tariff", i);
        for (size_t i = 0; i < COUNT(out_of_range); i++) {
            for (size_t place = 0; place < points; place++) {
                put(place, place + 1, out_of_range[i]);
                refuse((struct arguments){600, points, points, points}, "point", i);
                put(place, place + 1, right);
            }
        }
    }
}

int main(void)
{
    put(SHOWN, PLACES, (struct point){UINT64_MAX, UINT64_MAX});
    check_every_share();
    check_charges();
    check_refusals();
    if (failures)
        return 1;
    printf("C call, basic charge: every share, %zu points about its borders, %zu charges, "
           "%zu tariffs, %zu counts and %zu points out of range\n",
           COUNT(weighed), COUNT(charged) + 1, COUNT(tariffs_out_of_range), COUNT(counts_out_of_range),
           COUNT(out_of_range));
    return 0;
}
