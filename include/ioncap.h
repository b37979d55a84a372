/* Gains of the ten IONCAP antennas: document 01 section 9.
 *
 * Link target/staticlib/libcapi.a (made by host/run) and libm.
 *
 * Each function answers document 01's refusal number, 0 if it accepts:
 *
 *    1  type outside 1 to 10
 *    2  a number that is not finite, or over 1,000 in magnitude
 *    3  conductivity not above 0
 *    4  MHz outside 1 to 30
 *    5  type 6 with more than 64 bays
 *    7  an answer that is not 12 bytes, or a table that is not 11,040 bytes
 *    9  a carried height that is not finite
 *   11  a series that has not settled after eight turns
 *
 * Where several hold, the answer is the first of 9, 7, 1, 2, 3, 4, 5, 11.
 *
 * An answer of 12 bytes takes three little-endian floats: gain in dB,
 * efficiency in dB, and the height left, 0 where there is none. A refusal
 * writes 0, 0 and the carried height. NaN is written as 0x7fc00000. Where the
 * answer is not 12 bytes, nothing is written.
 *
 * A slice is a pointer, then its length in bytes. An answer is valid for reads
 * and writes of its length. A table is valid for reads of its length, and does
 * not overlap the answer.
 *
 * The functions keep nothing between calls and may be called from any thread.
 */
#ifndef IONCAP_H
#define IONCAP_H

#include <stddef.h>
#include <stdint.h>

#ifdef __cplusplus
extern "C" {
#endif

#define IONCAP_ANSWER_LENGTH 12
#define IONCAP_TABLE_LENGTH 11040

/* The gain of one antenna.
 *
 * height        the height carried from the call before, 0 at first: pass on
 *               the height left. At an elevation of 0 or below it decides the
 *               efficiency of types 2 and 5.
 * kop           the type, 1 to 10
 * toaz          off-azimuth, degrees
 * asig, aeps    the ground's conductivity (mhos/metre) and dielectric constant
 * angle         IoncapParams' `and`: an angle in degrees; type 6: bays
 * anl, anh      leg and height: metres, or, if negative, wavelengths; type 2's
 *               anh is a gain in dB
 * aex1 to aex4  what else the type takes
 * delta         elevation, radians
 * fmc           MHz
 * model         0 Compatible, any other number Corrected
 */
uint32_t ioncap_gain(float height, int32_t kop, float toaz, float asig,
                     float aeps, float angle, float anl, float anh, float aex1,
                     float aex2, float aex3, float aex4, float delta, float fmc,
                     int32_t model, uint8_t *answer, size_t answer_length);

/* The gain and efficiency of a table at fmc MHz and an elevation of delta
 * radians. A table is 2,760 little-endian floats: 30 rows (1 to 30 MHz) of 91
 * gains (0 to 90 degrees), then 30 efficiencies.
 */
uint32_t ioncap_lookup(const uint8_t *table, size_t table_length, float fmc,
                       float delta, uint8_t *answer, size_t answer_length);

/* The gain of the inverted cone at freq MHz and elev_deg degrees. */
uint32_t ioncap_cone(float freq, float elev_deg, uint8_t *answer,
                     size_t answer_length);

#ifdef __cplusplus
}
#endif

#endif
