/* Calls the classification from C through include/reactive.h and checks document 01's edges, both
 * refusals and the bytes that must stay. The expected shares are 01's, in grains. */
#include <inttypes.h>
#include <stdio.h>
#include <string.h>

#include "reactive.h"

enum { BUFFER = 48, FILL = 0xa5 };

struct quarter_hour {
    uint32_t role, level, band, lamp, take, supply, actual, set;
};

struct edge {
    struct quarter_hour q;
    uint64_t shares[5]; /* paid, free, billed, allowance, disconnected */
};

static const struct edge edges[] = {
    /* Active, 220 kV, S 22000, lamp 1, supply 1000. */
    {{0, 0, 0, 1, 0, 1000, 22099, 22000}, {1600000, 0, 0, 0, 0}},
    {{0, 0, 0, 1, 0, 1000, 22100, 22000}, {0, 1600000, 0, 0, 0}},
    {{0, 0, 0, 1, 0, 1000, 22199, 22000}, {0, 1600000, 0, 0, 0}},
    {{0, 0, 0, 1, 0, 1000, 22200, 22000}, {0, 0, 1600000, 0, 0}},
    /* Take 1000. */
    {{0, 0, 0, 1, 1000, 0, 21901, 22000}, {1600000, 0, 0, 0, 0}},
    {{0, 0, 0, 1, 1000, 0, 21900, 22000}, {0, 1600000, 0, 0, 0}},
    {{0, 0, 0, 1, 1000, 0, 21801, 22000}, {0, 1600000, 0, 0, 0}},
    {{0, 0, 0, 1, 1000, 0, 21800, 22000}, {0, 0, 1600000, 0, 0}},
    /* Lamp 0. */
    {{0, 0, 0, 0, 0, 1000, 22099, 22000}, {0, 0, 0, 0, 1600000}},
    {{0, 0, 0, 0, 1000, 0, 21800, 22000}, {0, 0, 0, 0, 1600000}},
    /* S 50, U 0, take 10. */
    {{0, 0, 0, 1, 10, 0, 0, 50}, {16000, 0, 0, 0, 0}},
    /* Point 1: semi-active, 380 kV, one transformer 1200, 1000, S 38500. */
    {{1, 1, 1200000, 0, 750, 0, 38000, 38500}, {0, 1200000, 0, 0, 0}},
    {{1, 1, 1200000, 0, 751, 0, 38199, 38500}, {0, 0, 1600, 1200000, 0}},
    {{1, 1, 1200000, 0, 751, 0, 38200, 38500}, {0, 1201600, 0, 0, 0}},
    {{1, 1, 1200000, 0, 0, 751, 38199, 38500}, {1600, 0, 0, 1200000, 0}},
    /* Take = supply. */
    {{0, 0, 0, 1, 1000, 1000, 22200, 22000}, {0, 0, 0, 0, 0}},
    {{1, 1, 1200000, 0, 751, 751, 38199, 38500}, {0, 0, 0, 0, 0}},
};

/* One argument of an accepted call after the other, just out of its range. */
static const struct quarter_hour out_of_range[] = {
    {2, 0, 1, 1, 0, 1000, 22050, 22000},
    {0, 2, 0, 1, 0, 1000, 22050, 22000},
    {0, 0, 1, 1, 0, 1000, 22050, 22000},
    {1, 0, 0, 1, 0, 1000, 22050, 22000},
    {1, 0, 320000001, 1, 0, 1000, 22050, 22000},
    {1, 0, 1, 2, 0, 1000, 22050, 22000},
    {0, 0, 0, 1, 1000001, 0, 22050, 22000},
    {0, 0, 0, 1, 0, 1000001, 22050, 22000},
    {0, 0, 0, 1, 0, 1000, 50001, 22000},
    {0, 0, 0, 1, 0, 1000, 22050, 50001},
    {0, 0, 0, 1, (uint32_t)-1, 0, 22050, 22000},
};

static int failures;

static void expect(int ok, const char *what, size_t i)
{
    if (!ok) {
        fprintf(stderr, "%s, case %zu: not as document 01 says\n", what, i);
        failures++;
    }
}

/* Calls on a filled buffer of which the first len bytes are lent. */
static uint32_t call(struct quarter_hour q, uint8_t buffer[BUFFER], size_t len)
{
    memset(buffer, FILL, BUFFER);
    return reactive_classify(q.role, q.level, q.band, q.lamp, q.take, q.supply, q.actual, q.set,
                             buffer, len);
}

static int untouched_from(const uint8_t buffer[BUFFER], size_t from)
{
    for (size_t i = from; i < BUFFER; i++)
        if (buffer[i] != FILL)
            return 0;
    return 1;
}

static uint64_t share(const uint8_t *bytes)
{
    uint64_t n = 0;
    for (int i = 0; i < 8; i++)
        n = n << 8 | bytes[i];
    return n;
}

int main(void)
{
    const size_t edge_count = sizeof edges / sizeof edges[0];
    const size_t refused_count = sizeof out_of_range / sizeof out_of_range[0];
    uint8_t buffer[BUFFER];

    for (size_t i = 0; i < edge_count; i++) {
        for (size_t len = REACTIVE_SHARES_SIZE; len <= BUFFER; len++) {
            expect(call(edges[i].q, buffer, len) == REACTIVE_ACCEPTED, "edge accepted", i);
            for (size_t k = 0; k < 5; k++)
                expect(share(buffer + 8 * k) == edges[i].shares[k], "edge share", i);
            expect(untouched_from(buffer, REACTIVE_SHARES_SIZE), "edge, bytes past 40", i);
        }
        for (size_t len = 0; len < REACTIVE_SHARES_SIZE; len++) {
            expect(call(edges[i].q, buffer, len) == REACTIVE_TOO_SHORT, "short slice", i);
            expect(untouched_from(buffer, 0), "short slice, bytes", i);
        }
    }
    for (size_t i = 0; i < refused_count; i++) {
        for (size_t len = 0; len <= BUFFER; len++) {
            expect(call(out_of_range[i], buffer, len) == REACTIVE_OUT_OF_RANGE, "out of range", i);
            expect(untouched_from(buffer, 0), "out of range, bytes", i);
        }
    }
    if (failures)
        return 1;
    printf("C call: %zu edges and %zu arguments out of range, each at slices of 0 to %d bytes\n",
           edge_count, refused_count, BUFFER);
    return 0;
}
