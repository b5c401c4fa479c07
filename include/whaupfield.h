/* The array store's functions for a C host. Version 0.4.0, before the first release: names, parameters and answers may
 * change, and docs/changes has a page for each request that changed some.
 *
 * Every function takes plain numbers and buffers that the caller owns. A buffer is a pointer and, after it, its length
 * in bytes: the pointer is not NULL, also where the length is 0, and points to that many bytes. A const buffer is lent
 * for reading, the other one for writing. Buffers lent to one call must not overlap. Nothing is allocated, and nothing
 * is kept between calls: calls with buffers of their own may run at the same time.
 *
 * A function answers any numbers and any bytes. After a refusal every lent byte is what it was.
 *
 * Numbers are size_t, so that none is cut down on its way: t = 258 is refused and not taken for 2. A scenario is a
 * uint32_t, a run a uint16_t, and a number in a node list a byte: there C cuts a wider number down, without a warning
 * unless the compiler is asked for one (-Wconversion), and the call cannot see it. Compare a wider scenario with
 * UINT32_MAX first and a wider run with UINT16_MAX: run 65536 would be taken for run 0.
 *
 * A profile is n (nodes), k (data nodes), a (rows), t (coupling constant), s (strip length in bytes) and its edition, 1
 * or 2. Nodes and rows count from 0. In memory the strip of row i, node j starts at (j*a + i) * s, so a node's column
 * is its a strips, row 0 first; data use the same order with j < k.
 *
 * The edition says in which order a plan goes over the nodes outside the lost group, and how a bundle begins; arrays,
 * data, readings and surveys are the same in both. Edition 1 begins at node 0, so that low-numbered drives are read
 * most where there is a choice; edition 2 begins at the node after the lost one, rising and wrapping past n-1 to 0,
 * which spreads what is read over the drives. Both read as many places; docs/LOAD.md has where they read other ones. A
 * bundle is rebuilt with the edition that it was written with; with the other one it is refused with 6. Use 2 for what
 * is new, and 1 for bundles kept from before and for the small program rebuild_node.
 *
 * A recording is a scenario and a run of it: two runs of one scenario are two recordings, and in one bundle their
 * strips do not pass together. The host gives each run a number of its own. Only a bundle's fields carry a recording:
 * arrays and columns are bare bytes, and no call can see of which recording they are. One call is about one array. A
 * recording of more data than an array holds is many arrays, and nothing in a bundle tells two arrays of one recording
 * apart: the host keeps them apart.
 *
 * Answers, the same for every call that takes a profile: WHAUPFIELD_NUMBER is 0 on success, otherwise the number of the
 * refusal; WHAUPFIELD_VALUE is what comes with it. On success each call below says what that is. With
 * WHAUPFIELD_MISPLACED and WHAUPFIELD_STALE it is the index of the first such strip, from 0 in plan order, with any
 * other refusal 0. The refusals are tried in the order 1, 2, 3, 13, 4, 5 and then 6 to 10, and the first that applies
 * is the answer: a misplaced strip goes before a stale one, wherever they stand. docs/OPERATOR.md says what to do about
 * each refusal.
 *
 * A bundle is fields of a one-byte tag, a two-byte length and content, all numbers high byte first:
 *   01 00 06  n, k, a, t, s in two bytes: edition 1
 *   01 00 07  n, k, a, t, s in two bytes, 02: edition 2
 *   02 00 07  lost node, scenario in four bytes, run in two
 *   03 and the length 8 + s, once for each place of the plan, in its order: node, row, scenario in four bytes, run in
 *             two, strip
 * A host that fetches the planned strips itself can put one together. Up to version 0.2.0 a bundle had no run: such a
 * bundle is refused with 6.
 *
 * Stack, as measured: reading back takes up to 69 KB, a survey 22 KB, a rebuild 14 KB, encoding 5 KB, the other calls
 * less than 1 KB. A stack that is too small ends in a fault and not in a refusal.
 */
#ifndef WHAUPFIELD_H
#define WHAUPFIELD_H

#include <stddef.h>
#include <stdint.h>

#define WHAUPFIELD_VERSION_MAJOR 0
#define WHAUPFIELD_VERSION_MINOR 4
#define WHAUPFIELD_VERSION_PATCH 0
#define WHAUPFIELD_VERSION "0.4.0"

#define WHAUPFIELD_NUMBER(answer) ((unsigned)((uint64_t)(answer) & 0xFF))
#define WHAUPFIELD_VALUE(answer) ((uint64_t)(answer) >> 8)

/* The parts of a survey's value. With a refusal all three are 0, and the position is 0 with done and open too. */
#define WHAUPFIELD_OUTCOME(answer) ((unsigned)((uint64_t)(answer) >> 8 & 3))
#define WHAUPFIELD_POSITION(answer) ((uint64_t)(answer) >> 10 & 0x3FFFFF)
#define WHAUPFIELD_LOOKED(answer) ((uint64_t)(answer) >> 32)

enum { WHAUPFIELD_FAILING = 1, WHAUPFIELD_DONE = 2, WHAUPFIELD_OPEN = 3 };

/* The refusals, in the order in which they are tried; whaupfield_refusal_sentence says when each is given. */
enum whaupfield_refusal {
    WHAUPFIELD_OK = 0,
    WHAUPFIELD_SHAPE = 1,
    WHAUPFIELD_CONSTANT = 2,
    WHAUPFIELD_STRIP_LENGTH = 3,
    WHAUPFIELD_EDITION = 13,
    WHAUPFIELD_OUT_OF_RANGE = 4,
    WHAUPFIELD_BUFFER_LENGTH = 5,
    WHAUPFIELD_FORM = 6,
    WHAUPFIELD_HEAD = 7,
    WHAUPFIELD_MISPLACED = 8,
    WHAUPFIELD_STALE = 9,
    WHAUPFIELD_AMBIGUOUS = 10
};

/* The number of whaupfield_inverse for 0: that there is no inverse, which is not a refusal. */
#define WHAUPFIELD_NO_INVERSE 255

/* The name of a refusal, or of WHAUPFIELD_OK. */
static inline const char *whaupfield_refusal_name(unsigned number)
{
    switch (number) {
    case WHAUPFIELD_OK: return "WHAUPFIELD_OK";
    case WHAUPFIELD_SHAPE: return "WHAUPFIELD_SHAPE";
    case WHAUPFIELD_CONSTANT: return "WHAUPFIELD_CONSTANT";
    case WHAUPFIELD_STRIP_LENGTH: return "WHAUPFIELD_STRIP_LENGTH";
    case WHAUPFIELD_EDITION: return "WHAUPFIELD_EDITION";
    case WHAUPFIELD_OUT_OF_RANGE: return "WHAUPFIELD_OUT_OF_RANGE";
    case WHAUPFIELD_BUFFER_LENGTH: return "WHAUPFIELD_BUFFER_LENGTH";
    case WHAUPFIELD_FORM: return "WHAUPFIELD_FORM";
    case WHAUPFIELD_HEAD: return "WHAUPFIELD_HEAD";
    case WHAUPFIELD_MISPLACED: return "WHAUPFIELD_MISPLACED";
    case WHAUPFIELD_STALE: return "WHAUPFIELD_STALE";
    case WHAUPFIELD_AMBIGUOUS: return "WHAUPFIELD_AMBIGUOUS";
    default: return "not the number of a refusal";
    }
}

/* When a call answers with this number: exactly then, if none that is tried before it applies. */
static inline const char *whaupfield_refusal_sentence(unsigned number)
{
    switch (number) {
    case WHAUPFIELD_OK: return "the call is not refused";
    case WHAUPFIELD_SHAPE:
        return "n, k or a is not accepted; accepted are k >= 1, n > k, 2 <= a <= 4, a <= n-k, a divides n, n <= 24";
    case WHAUPFIELD_CONSTANT: return "t is not in 2..255";
    case WHAUPFIELD_STRIP_LENGTH: return "s is 0 or above 512";
    case WHAUPFIELD_EDITION: return "the edition is not 1 or 2";
    case WHAUPFIELD_OUT_OF_RANGE:
        return "the lost node is not below n, the node list is not k strictly rising numbers below n, "
               "or the survey's start is above the number of sets";
    case WHAUPFIELD_BUFFER_LENGTH:
        return "a lent buffer other than the bundle to read has the wrong length (a plan's: is too short)";
    case WHAUPFIELD_FORM:
        return "the bundle's total length, tags or field lengths are not those of the wanted profile and node";
    case WHAUPFIELD_HEAD: return "the content of the bundle's field 01 or 02 is not what is wanted";
    case WHAUPFIELD_MISPLACED: return "a strip's place is not the plan's";
    case WHAUPFIELD_STALE: return "a strip's scenario or run is not the wanted one";
    case WHAUPFIELD_AMBIGUOUS:
        return "some two different data give equal columns on the named nodes, whatever bytes the columns hold";
    default: return "no refusal has this number";
    }
}

/* The ceilings, and the longest buffers that any accepted profile has. */
#define WHAUPFIELD_MAX_NODES 24
#define WHAUPFIELD_MAX_ROWS 4
#define WHAUPFIELD_MAX_STRIP 512
#define WHAUPFIELD_MAX_PLACES 38
#define WHAUPFIELD_MAX_COLUMN (WHAUPFIELD_MAX_ROWS * WHAUPFIELD_MAX_STRIP)
#define WHAUPFIELD_MAX_DATA ((WHAUPFIELD_MAX_NODES - WHAUPFIELD_MAX_ROWS) * WHAUPFIELD_MAX_COLUMN)
#define WHAUPFIELD_MAX_ARRAY (WHAUPFIELD_MAX_NODES * WHAUPFIELD_MAX_COLUMN)
#define WHAUPFIELD_MAX_PLAN (2 * WHAUPFIELD_MAX_PLACES)
#define WHAUPFIELD_MAX_BUNDLE (20 + WHAUPFIELD_MAX_PLACES * (11 + WHAUPFIELD_MAX_STRIP))

/* A profile's numbers, and how they are handed to a call: whaupfield_plan(WHAUPFIELD_PROFILE(p), ..). The macro names p
 * once for each number. A number that a later version adds to a profile is added in these two places, and a call that
 * is written so stays as it is. What sets the members must still set the new one: up to version 0.3.0 there was no
 * edition, and an initializer of five numbers leaves it 0, which every call refuses with 13. */
struct whaupfield_profile {
    size_t n, k, a, t, s, edition;
};

#define WHAUPFIELD_PROFILE(p) (p).n, (p).k, (p).a, (p).t, (p).s, (p).edition

/* The lengths of a profile's buffers in bytes, and the number of places of its plans. A node list and a survey's set
 * have k bytes. For a profile that is not accepted they give some number or other; a call refuses such a profile
 * whatever the lengths are. */

/* Of the data, and of the columns that data are read back from. */
static inline size_t whaupfield_data_length(struct whaupfield_profile p)
{
    return p.k * p.a * p.s;
}

static inline size_t whaupfield_array_length(struct whaupfield_profile p)
{
    return p.n * p.a * p.s;
}

static inline size_t whaupfield_column_length(struct whaupfield_profile p)
{
    return p.a * p.s;
}

/* The number of places, a-1 + k + max(0, k - (n/a - 1)), the same for every lost node. */
static inline size_t whaupfield_places(struct whaupfield_profile p)
{
    size_t groups = p.a == 0 ? 0 : p.n / p.a;
    size_t second_strips = p.k + 1 > groups ? p.k + 1 - groups : 0;

    return p.a - 1 + p.k + second_strips;
}

/* Two bytes a place. */
static inline size_t whaupfield_plan_length(struct whaupfield_profile p)
{
    return 2 * whaupfield_places(p);
}

/* Field 01 has a last byte for the edition, but for edition 1. */
static inline size_t whaupfield_bundle_length(struct whaupfield_profile p)
{
    size_t head = p.edition == 1 ? 19 : 20;

    return head + whaupfield_places(p) * (11 + p.s);
}

#ifdef __cplusplus
extern "C" {
#endif

/* Encode: writes to array the encoded array of the data; both buffers have exactly their profile's length. Value 0.
 * Refused with 1, 2, 3, 13 or 5. */
uint64_t whaupfield_encode(size_t n, size_t k, size_t a, size_t t, size_t s, size_t edition,
                           const uint8_t *data, size_t data_length,
                           uint8_t *array, size_t array_length);

/* Plan: writes to places the places that are read to rebuild the lost node, two bytes each, node first, then row. The
 * buffer may be longer, and bytes past the plan stay; a shorter one is 5; WHAUPFIELD_MAX_PLAN bytes hold any plan.
 * Value: the number of places. Refused with 1, 2, 3, 13, 4 or 5. Other libraries call it the fragments needed. */
uint64_t whaupfield_plan(size_t n, size_t k, size_t a, size_t t, size_t s, size_t edition,
                         size_t lost, uint8_t *places, size_t places_length);

/* Write bundle: writes to bundle the bundle for rebuilding the lost node, cut from a stored array, with this scenario
 * and run in field 02 and in every strip's field. Both buffers have exactly their profile's length. Only the planned
 * places are read, so the lost column may hold anything. Value: the bundle's length. Refused with 1, 2, 3, 13, 4 or
 * 5. */
uint64_t whaupfield_write_bundle(size_t n, size_t k, size_t a, size_t t, size_t s, size_t edition,
                                 size_t lost, uint32_t scenario, uint16_t run,
                                 const uint8_t *array, size_t array_length,
                                 uint8_t *bundle, size_t bundle_length);

/* Rebuild: writes to column the lost node's column, row 0 first, from a bundle for the wanted profile, node, scenario
 * and run. The bundle may be any bytes of any length: one that is not in order is 6, 7, 8 or 9, never 5. A buffer of
 * another length than a column's is 5. Value 0. Refused with 1, 2, 3, 13 or 4 to 9. Other libraries call it
 * reconstruct. */
uint64_t whaupfield_rebuild(size_t n, size_t k, size_t a, size_t t, size_t s, size_t edition,
                            size_t lost, uint32_t scenario, uint16_t run,
                            const uint8_t *bundle, size_t bundle_length,
                            uint8_t *column, size_t column_length);

/* Read back: writes to output the data, from the columns of k named nodes. nodes holds their k numbers, one byte each,
 * strictly rising; columns holds the nodes' columns joined in the order of the list, as many bytes as the data. If the
 * nodes are not refused with 10, any bytes of that length are the columns of exactly one recording's data; whether they
 * are refused depends on the profile and the list alone. Value 0. Refused with 1, 2, 3, 13, 4, 5 or 10; a list of
 * another length than k is 4. Other libraries call it decode. */
uint64_t whaupfield_read_back(size_t n, size_t k, size_t a, size_t t, size_t s, size_t edition,
                              const uint8_t *nodes, size_t nodes_length,
                              const uint8_t *columns, size_t columns_length,
                              uint8_t *output, size_t output_length);

/* Survey: looks at the sets of k of n nodes in lexicographic order, from the position start on (0 is the first), at
 * most `most` of them, for one that cannot be read back from. WHAUPFIELD_OUTCOME is
 *   WHAUPFIELD_FAILING  one was found; WHAUPFIELD_POSITION is its position, counted from the first set of all, and its
 *                       k node numbers are written to set
 *   WHAUPFIELD_DONE     none was found, and no set is left; set stays as it was
 *   WHAUPFIELD_OPEN     none was found, and sets are left: go on at start + WHAUPFIELD_LOOKED; set stays as it was
 * WHAUPFIELD_LOOKED is the number of sets looked at, the failing one counted. Done says that every set from start on
 * can be read back from: every set of all if start is 0, or if it was reached from 0 by surveys that were all open,
 * each gone on with where it stopped. s must be accepted but changes nothing. set has k bytes. `most` may be more than
 * are left: SIZE_MAX looks at all. start may be the number of sets: done, 0 looked at. Refused with 1, 2, 3, 13, 4 or
 * 5. */
uint64_t whaupfield_survey(size_t n, size_t k, size_t a, size_t t, size_t s, size_t edition,
                           size_t start, size_t most, uint8_t *set, size_t set_length);

/* The product of two bytes in the field of 0x11D. */
uint8_t whaupfield_product(uint8_t a, uint8_t b);

/* The inverse of a byte, whose product with it is 1. On success the number is WHAUPFIELD_OK and the value the inverse,
 * which is never 0. Zero has no inverse: the number is WHAUPFIELD_NO_INVERSE and the value 0, so look at the number
 * first. Up to version 0.1.0 the inverse was returned as a uint8_t, and 0 for 0. A host that still keeps it in one gets
 * 0 for every byte but 0, and 255 for 0; -Wconversion warns of that, but not of a cast, of == 0 or of a 64-bit
 * variable: look for this name in your sources. */
uint64_t whaupfield_inverse(uint8_t a);

#ifdef __cplusplus
}
#endif

#endif
