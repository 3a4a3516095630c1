/* The classification of one quarter-hour of reactive energy, the conversion of one that is metered on
 * the low-voltage side, and the charge for weighted supply points, as a C program calls them.
 * Link the archive of the crate `reactive_c`, which `tools/build` puts at target/staticlib/libreactive.a. */
#ifndef REACTIVE_H
#define REACTIVE_H

#include <stddef.h>
#include <stdint.h>

#ifdef __cplusplus
extern "C" {
#endif

/* What each call answers if it gives what was asked for. */
#define REACTIVE_ACCEPTED 0u

/* What else reactive_classify answers; the slice is as it was. */
#define REACTIVE_OUT_OF_RANGE 5u /* an argument is out of its range */
#define REACTIVE_TOO_SHORT 13u   /* the slice has under 40 bytes */

/* What else reactive_low_side answers; take and supply are as they were. */
#define REACTIVE_FIELD_OUT_OF_RANGE 14u /* an argument is out of its range */
#define REACTIVE_IMPLAUSIBLE 15u /* uk is below uR, or the apparent power is above twice Sn */

/* What else reactive_basic_charge answers; the charge is as it was. */
#define REACTIVE_CHARGE_OUT_OF_RANGE 16u /* an argument is out of its range, a slice has fewer places
                                          * than points, or a point drew and fed in nothing */

/* The bytes that the five shares take. */
#define REACTIVE_SHARES_SIZE 40

/* Which shares the net energy of a quarter-hour falls into.
 *
 *   role        0 active, 1 semi-active
 *   level       0 is 220 kV, 1 is 380 kV
 *   band        in grains (1/1600 kvarh): 0 if active, else 1 to 320,000,000: the sum, over the
 *               transformers, of uk in 0.01 % times Sn in 0.1 MVA
 *   lamp        0 or 1, for both roles; without effect on a semi-active point
 *   take        energy taken from the grid in kvarh, 0 to 1,000,000
 *   supply      energy supplied to the grid in kvarh, 0 to 1,000,000
 *   actual      actual voltage in 0.01 kV, 0 to 50,000
 *   set         set voltage in 0.01 kV, 0 to 50,000
 *   shares      a slice of shares_len bytes. Its first 40 get paid, free, billed, allowance and
 *               disconnected energy in grains, 8 bytes each, most significant byte first. Its other
 *               bytes stay.
 *
 * An argument out of range is found before a short slice. A refusal leaves every byte as it was. */
uint32_t reactive_classify(uint32_t role, uint32_t level, uint32_t band, uint32_t lamp,
                           uint32_t take, uint32_t supply, uint32_t actual, uint32_t set,
                           uint8_t *shares, size_t shares_len);

/* The reactive energy on the high side of a transformer whose quarter-hour is metered on the
 * low-voltage side: minus the reactive energy there, plus the loss, which is rounded to the nearest
 * kvarh, halves up. It is the take of an entry if positive, else the supply.
 *
 *   active                  active energy in kWh, -300,000 to 300,000
 *   reactive                reactive energy in kvarh, -300,000 to 300,000. Both energies are positive
 *                           towards the transformer
 *   rated_power             Sn in 0.1 MVA, 1 to 5,000
 *   short_circuit_voltage   uk in 0.01 %, 1 to 4,000
 *   no_load_current         i0 in 0.01 %, 0 to 4,000
 *   copper_losses           in kW, 0 to 4,000. uR is these over Sn
 *   take, supply            get the energies taken from and supplied to the grid, in kvarh, each at
 *                           most 1,000,000, as in an entry. One of them is 0. The two must be
 *                           different
 *
 * uk may equal uR, and the apparent power, that of four times the energies, may equal twice Sn. An
 * argument out of range is found before what is implausible. A refusal leaves both numbers as they
 * were. */
uint32_t reactive_low_side(int32_t active, int32_t reactive, uint32_t rated_power,
                           uint32_t short_circuit_voltage, uint32_t no_load_current,
                           uint32_t copper_losses, uint32_t *take, uint32_t *supply);

/* What supply points cost at the fixed basic tariff, each weighted by its factor K: the tariff times the
 * sum of K, divided by 600 and rounded down once, at the end. The share of a point is the drawn part of
 * all that it drew and fed in, in thousandths, rounded down; K is 0 up to share 200, 600 from share 800,
 * and the share less 200 between.
 *
 *   fixed_tariff   in rappen for a point of full weight, 0 to 100,000,000
 *   points         how many there are, 1 to 8
 *   drawn          a slice of drawn_places numbers: what each point drew in the last 12 months, in kWh,
 *                  0 to 1,000,000,000,000
 *   fed_in         a slice of fed_in_places numbers: what each point fed in, in the same way
 *   charge         gets the charge in rappen. It must lie in neither slice
 *
 * A slice may have more places than there are points; those are not read. A point may have drawn nothing,
 * or fed in nothing, but not both. A refusal leaves the charge as it was. */
uint32_t reactive_basic_charge(uint32_t fixed_tariff, uint32_t points, const uint64_t *drawn,
                               size_t drawn_places, const uint64_t *fed_in, size_t fed_in_places,
                               uint64_t *charge);

#ifdef __cplusplus
}
#endif

#endif
