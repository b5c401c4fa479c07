/* Compares what the header says with what the calls answer, through the header as a host uses it: lengths and ceilings
 * over every accepted (n, k, A) in both editions, the names of the refusals, the inverses, the version. C99 that is C++
 * as well: compiled as both. */
#include <stdarg.h>
#include <stdio.h>
#include <stdlib.h>
#include <string.h>

#include "whaupfield.h"

/* The recording, in numbers that no narrower type holds, and how many bytes it takes in a field. */
enum { SCENARIO = 0x01020304, RUN = 0x0506, RECORDING = 6 };

/* Where in a strip's field the row, the scenario's last byte and the run's last byte stand. */
enum { ROW = 4, SCENARIO_END = 8, RUN_END = 10 };

/* What is lent: room for the longest buffers, and for one byte more. */
static uint8_t data[WHAUPFIELD_MAX_DATA + 1], array[WHAUPFIELD_MAX_ARRAY + 1], places[WHAUPFIELD_MAX_PLAN + 1];
static uint8_t bundle[WHAUPFIELD_MAX_BUNDLE + 1], column[WHAUPFIELD_MAX_COLUMN + 1], output[WHAUPFIELD_MAX_DATA + 1];
static uint8_t nodes[WHAUPFIELD_MAX_NODES], set[WHAUPFIELD_MAX_NODES + 1];

/* The calls, with the lengths of the buffer lent for reading and of the one lent for writing. */

static uint64_t encode(struct whaupfield_profile p, size_t lost, size_t reading, size_t writing)
{
    (void)lost;
    return whaupfield_encode(WHAUPFIELD_PROFILE(p), data, reading, array, writing);
}

static uint64_t plan(struct whaupfield_profile p, size_t lost, size_t reading, size_t writing)
{
    (void)reading;
    return whaupfield_plan(WHAUPFIELD_PROFILE(p), lost, places, writing);
}

static uint64_t write_bundle(struct whaupfield_profile p, size_t lost, size_t reading, size_t writing)
{
    return whaupfield_write_bundle(WHAUPFIELD_PROFILE(p), lost, SCENARIO, RUN, array, reading, bundle, writing);
}

static uint64_t rebuild(struct whaupfield_profile p, size_t lost, size_t reading, size_t writing)
{
    return whaupfield_rebuild(WHAUPFIELD_PROFILE(p), lost, SCENARIO, RUN, bundle, reading, column, writing);
}

static uint64_t read_back(struct whaupfield_profile p, size_t lost, size_t reading, size_t writing)
{
    (void)lost;
    return whaupfield_read_back(WHAUPFIELD_PROFILE(p), nodes, p.k, data, reading, output, writing);
}

static uint64_t survey(struct whaupfield_profile p, size_t lost, size_t reading, size_t writing)
{
    (void)lost;
    (void)reading;
    return whaupfield_survey(WHAUPFIELD_PROFILE(p), 0, 1, set, writing);
}

/* What they answer where the lengths are right. */

static uint64_t nothing(struct whaupfield_profile p)
{
    (void)p;
    return 0;
}

static uint64_t places_as_value(struct whaupfield_profile p)
{
    return (uint64_t)whaupfield_places(p) << 8;
}

static uint64_t bundle_length_as_value(struct whaupfield_profile p)
{
    return (uint64_t)whaupfield_bundle_length(p) << 8;
}

/* A survey that looks at the first set alone: it is failing, or done or open. */
static uint64_t first_set(struct whaupfield_profile p)
{
    return survey(p, 0, 0, p.k);
}

/* The first k nodes are read back from: the same set. */
static uint64_t first_set_read(struct whaupfield_profile p)
{
    return WHAUPFIELD_OUTCOME(first_set(p)) == WHAUPFIELD_FAILING ? WHAUPFIELD_AMBIGUOUS : WHAUPFIELD_OK;
}

/* Numbers of a profile, as functions like those of the header. */

static size_t n_of(struct whaupfield_profile p)
{
    return p.n;
}

static size_t k_of(struct whaupfield_profile p)
{
    return p.k;
}

static size_t a_of(struct whaupfield_profile p)
{
    return p.a;
}

static size_t s_of(struct whaupfield_profile p)
{
    return p.s;
}

typedef size_t number_of(struct whaupfield_profile);

struct call {
    const char *name;
    uint64_t (*answer)(struct whaupfield_profile p, size_t lost, size_t reading, size_t writing);
    int of_lost;                  /* whether it is given a lost node */
    number_of *reading, *writing; /* the right lengths; without a buffer for reading NULL */
    uint64_t (*due)(struct whaupfield_profile p);
    unsigned wrong_reading; /* what another length for reading gets */
    int may_be_longer;      /* whether the buffer for writing may be */
};

/* In this order: a bundle is cut from what was encoded, and a rebuild is given that bundle. */
static const struct call calls[] = {
    {"encode", encode, 0, whaupfield_data_length, whaupfield_array_length, nothing, WHAUPFIELD_BUFFER_LENGTH, 0},
    {"plan", plan, 1, NULL, whaupfield_plan_length, places_as_value, 0, 1},
    {"write_bundle", write_bundle, 1, whaupfield_array_length, whaupfield_bundle_length, bundle_length_as_value,
     WHAUPFIELD_BUFFER_LENGTH, 0},
    {"rebuild", rebuild, 1, whaupfield_bundle_length, whaupfield_column_length, nothing, WHAUPFIELD_FORM, 0},
    {"read_back", read_back, 0, whaupfield_data_length, whaupfield_data_length, first_set_read,
     WHAUPFIELD_BUFFER_LENGTH, 0},
    {"survey", survey, 0, NULL, k_of, first_set, 0, 0},
};

enum { CALLS = sizeof calls / sizeof *calls };

struct ceiling {
    const char *name;
    size_t most;
    number_of *of;
};

static const struct ceiling ceilings[] = {
    {"WHAUPFIELD_MAX_NODES", WHAUPFIELD_MAX_NODES, n_of},
    {"WHAUPFIELD_MAX_ROWS", WHAUPFIELD_MAX_ROWS, a_of},
    {"WHAUPFIELD_MAX_STRIP", WHAUPFIELD_MAX_STRIP, s_of},
    {"WHAUPFIELD_MAX_PLACES", WHAUPFIELD_MAX_PLACES, whaupfield_places},
    {"WHAUPFIELD_MAX_COLUMN", WHAUPFIELD_MAX_COLUMN, whaupfield_column_length},
    {"WHAUPFIELD_MAX_DATA", WHAUPFIELD_MAX_DATA, whaupfield_data_length},
    {"WHAUPFIELD_MAX_ARRAY", WHAUPFIELD_MAX_ARRAY, whaupfield_array_length},
    {"WHAUPFIELD_MAX_PLAN", WHAUPFIELD_MAX_PLAN, whaupfield_plan_length},
    {"WHAUPFIELD_MAX_BUNDLE", WHAUPFIELD_MAX_BUNDLE, whaupfield_bundle_length},
};

enum { CEILINGS = sizeof ceilings / sizeof *ceilings };

/* How a profile is printed. */
#define PROFILE_FORM "n=%zu k=%zu A=%zu t=%zu S=%zu edition=%zu"

static size_t met[CEILINGS]; /* the largest that an accepted profile has */
static size_t profiles, cases;

/* Prints the whole case on one line, as printf does, and ends the comparison. */
static void disagree(const char *form, ...)
{
    va_list parts;

    va_start(parts, form);
    printf("compare: header: ");
    vprintf(form, parts);
    printf("\n");
    va_end(parts);
    exit(1);
}

/* One call with these lengths. */
static void compare_call(const struct call *c, struct whaupfield_profile p, size_t lost, size_t reading, size_t writing,
                         uint64_t due)
{
    uint64_t answer = c->answer(p, lost, reading, writing);

    cases++;
    if (answer != due)
        disagree("%s " PROFILE_FORM " lost=%zu, %zu bytes lent for reading and %zu for writing: "
                 "the library answers %u with %llu, expected %u with %llu",
                 c->name, WHAUPFIELD_PROFILE(p), lost, reading, writing, WHAUPFIELD_NUMBER(answer),
                 (unsigned long long)WHAUPFIELD_VALUE(answer), WHAUPFIELD_NUMBER(due),
                 (unsigned long long)WHAUPFIELD_VALUE(due));
}

/* The header's lengths, and each of them one byte shorter and one longer. */
static void compare_lengths(const struct call *c, struct whaupfield_profile p, size_t lost)
{
    size_t reading = c->reading ? c->reading(p) : 0, writing = c->writing(p);
    uint64_t due = c->due(p), wrong_writing = WHAUPFIELD_BUFFER_LENGTH;

    compare_call(c, p, lost, reading, writing, due);
    compare_call(c, p, lost, reading, writing - 1, wrong_writing);
    compare_call(c, p, lost, reading, writing + 1, c->may_be_longer ? due : wrong_writing);
    if (!c->reading)
        return;
    compare_call(c, p, lost, reading - 1, writing, c->wrong_reading);
    compare_call(c, p, lost, reading + 1, writing, c->wrong_reading);
}

/* A call that is given no lost node is compared once, with the first. */
static void compare_calls(struct whaupfield_profile p, size_t lost)
{
    for (int i = 0; i < CALLS; i++)
        if (calls[i].of_lost || lost == 0)
            compare_lengths(&calls[i], p, lost);
}

/* The buffers here have room for lengths up to the header's ceilings: a longer one ends the comparison. */
static void meet_ceilings(struct whaupfield_profile p)
{
    for (int i = 0; i < CEILINGS; i++) {
        size_t number = ceilings[i].of(p);

        if (number > ceilings[i].most)
            disagree("%s is %zu, and " PROFILE_FORM " has %zu", ceilings[i].name, ceilings[i].most,
                     WHAUPFIELD_PROFILE(p), number);
        if (number > met[i])
            met[i] = number;
    }
}

/* Whether numbers are accepted is the library's word: a plan for node 0 with room for any plan gets 0, or 1, 2, 3 or
 * 13. */
static void compare_profile(struct whaupfield_profile p)
{
    unsigned number = WHAUPFIELD_NUMBER(plan(p, 0, 0, WHAUPFIELD_MAX_PLAN));

    if ((number >= WHAUPFIELD_SHAPE && number <= WHAUPFIELD_STRIP_LENGTH) || number == WHAUPFIELD_EDITION)
        return;
    profiles++;
    meet_ceilings(p);
    for (size_t lost = 0; lost < p.n; lost++)
        compare_calls(p, lost);
}

/* n, k and A to past their ceilings, told apart by the digits of a number, in the editions from 0 to 3. */
static void compare_shapes(size_t t, size_t s)
{
    const size_t to = WHAUPFIELD_MAX_NODES + 3;

    for (size_t shape = 0; shape < to * to * to; shape++)
        for (size_t edition = 0; edition < 4; edition++) {
            struct whaupfield_profile p = {shape / (to * to), shape / to % to, shape % to, t, s, edition};

            compare_profile(p);
        }
}

static void compare_strips(size_t t)
{
    const size_t lengths[] = {1, 2, 3, 16, 255, 256, 511, 512, 513};

    for (size_t i = 0; i < sizeof lengths / sizeof *lengths; i++)
        compare_shapes(t, lengths[i]);
}

static void compare_ceilings(void)
{
    for (int i = 0; i < CEILINGS; i++, cases++)
        if (met[i] != ceilings[i].most)
            disagree("%s is %zu, and the most that was met is %zu", ceilings[i].name, ceilings[i].most, met[i]);
}

/* No length has undefined behaviour, whatever the numbers: a division by 0 would end the program. */
static void compare_any_numbers(void)
{
    const size_t any[] = {0, 1, 2, 4, 24, 512, (size_t)1 << 32, SIZE_MAX - 1, SIZE_MAX};
    const size_t to = sizeof any / sizeof *any;
    volatile size_t kept;

    for (size_t i = 0; i < to * to * to * to * to; i++, cases++) {
        size_t n = any[i % to], k = any[i / to % to], a = any[i / to / to % to], rest = i / to / to / to;
        struct whaupfield_profile p = {n, k, a, 2, any[rest % to], any[rest / to]};

        kept = whaupfield_data_length(p) + whaupfield_array_length(p) + whaupfield_column_length(p);
        kept = kept + whaupfield_plan_length(p) + whaupfield_bundle_length(p);
    }
    (void)kept;
}

/* A call that is refused so, and the name of the refusal. */
static void compare_refusal(uint64_t answer, unsigned refusal, const char *name)
{
    cases++;
    if (WHAUPFIELD_NUMBER(answer) != refusal || strcmp(whaupfield_refusal_name(refusal), name) != 0)
        disagree("%s is %u and called %s; the library answers %u", name, refusal, whaupfield_refusal_name(refusal),
                 WHAUPFIELD_NUMBER(answer));
}

#define COMPARE_REFUSAL(answer, refusal) compare_refusal(answer, refusal, #refusal)

/* Where the first strip's field starts in a bundle: field 02 ends there, and its recording with it. */
static size_t first_field(struct whaupfield_profile p)
{
    return p.edition == 1 ? 19 : 20;
}

/* A rebuild of node 0 from the bundle with one byte of the first strip's field changed. */
static uint64_t rebuild_changed(struct whaupfield_profile p, size_t byte)
{
    uint64_t answer;

    bundle[first_field(p) + byte] ^= 1;
    answer = rebuild(p, 0, whaupfield_bundle_length(p), whaupfield_column_length(p));
    bundle[first_field(p) + byte] ^= 1;
    return answer;
}

/* A bundle of one edition is not in the form of the other, whichever of the two lengths is lent. */
static void compare_two_editions(struct whaupfield_profile written, struct whaupfield_profile wanted)
{
    const size_t lengths[] = {whaupfield_bundle_length(written), whaupfield_bundle_length(wanted)};

    COMPARE_REFUSAL(write_bundle(written, 0, whaupfield_array_length(written), lengths[0]), WHAUPFIELD_OK);
    for (int i = 0; i < 2; i++)
        COMPARE_REFUSAL(rebuild(wanted, 0, lengths[i], whaupfield_column_length(wanted)), WHAUPFIELD_FORM);
}

static void compare_refusals(size_t edition)
{
    const struct whaupfield_profile p = {4, 2, 2, 2, 1, edition}, uneven = {5, 2, 2, 2, 1, edition};
    const struct whaupfield_profile small_t = {4, 2, 2, 1, 1, edition}, t_5 = {4, 2, 2, 5, 1, edition};
    const struct whaupfield_profile long_s = {4, 2, 2, 2, WHAUPFIELD_MAX_STRIP + 1, edition};
    const struct whaupfield_profile other = {4, 2, 2, 2, 1, 3 - edition}, neither = {4, 2, 2, 2, 1, 3};
    const size_t length = whaupfield_bundle_length(p), width = whaupfield_column_length(p);
    const uint8_t pair[2] = {0, 3};

    compare_two_editions(other, p);
    COMPARE_REFUSAL(write_bundle(p, 0, whaupfield_array_length(p), length), WHAUPFIELD_OK);
    COMPARE_REFUSAL(plan(uneven, 0, 0, WHAUPFIELD_MAX_PLAN), WHAUPFIELD_SHAPE);
    COMPARE_REFUSAL(plan(small_t, 0, 0, WHAUPFIELD_MAX_PLAN), WHAUPFIELD_CONSTANT);
    COMPARE_REFUSAL(plan(long_s, 0, 0, WHAUPFIELD_MAX_PLAN), WHAUPFIELD_STRIP_LENGTH);
    COMPARE_REFUSAL(plan(neither, 0, 0, WHAUPFIELD_MAX_PLAN), WHAUPFIELD_EDITION);
    COMPARE_REFUSAL(plan(p, p.n, 0, WHAUPFIELD_MAX_PLAN), WHAUPFIELD_OUT_OF_RANGE);
    COMPARE_REFUSAL(plan(p, 0, 0, 0), WHAUPFIELD_BUFFER_LENGTH);
    COMPARE_REFUSAL(rebuild(p, 0, 0, width), WHAUPFIELD_FORM);
    COMPARE_REFUSAL(rebuild(p, 1, length, width), WHAUPFIELD_HEAD);
    COMPARE_REFUSAL(rebuild_changed(p, ROW), WHAUPFIELD_MISPLACED);
    COMPARE_REFUSAL(rebuild_changed(p, SCENARIO_END), WHAUPFIELD_STALE);
    COMPARE_REFUSAL(rebuild_changed(p, RUN_END), WHAUPFIELD_STALE);
    COMPARE_REFUSAL(whaupfield_read_back(WHAUPFIELD_PROFILE(t_5), pair, 2, data, 4, output, 4), WHAUPFIELD_AMBIGUOUS);
}

/* A host's profile from before there was an edition. -Wextra warns of such an initializer; here it is meant. */
#pragma GCC diagnostic push
#pragma GCC diagnostic ignored "-Wmissing-field-initializers"
static const struct whaupfield_profile of_five_numbers = {4, 2, 2, 2, 1};
#pragma GCC diagnostic pop

/* Its edition is 0, and every call refuses it so, with the header's lengths for 0 and for either edition. */
static void compare_five_numbers(void)
{
    for (int i = 0; i < CALLS; i++)
        for (size_t edition = 0; edition < 3; edition++) {
            struct whaupfield_profile p = of_five_numbers;

            p.edition = edition;
            compare_call(&calls[i], of_five_numbers, 0, calls[i].reading ? calls[i].reading(p) : 0,
                         calls[i].writing(p), WHAUPFIELD_EDITION);
        }
}

/* The members of a profile, one for each argument of a call. */
static struct whaupfield_profile profile_of(size_t n, size_t k, size_t a, size_t t, size_t s, size_t edition)
{
    struct whaupfield_profile p;

    p.n = n;
    p.k = k;
    p.a = a;
    p.t = t;
    p.s = s;
    p.edition = edition;
    return p;
}

/* WHAUPFIELD_PROFILE hands over all numbers of a profile, in the order of its members and of a call's arguments. */
static void compare_macro(void)
{
    const struct whaupfield_profile given = {1, 2, 3, 4, 5, 6};
    const struct whaupfield_profile kept = profile_of(WHAUPFIELD_PROFILE(given));

    cases++;
    if (memcmp(&given, &kept, sizeof given) != 0)
        disagree("WHAUPFIELD_PROFILE hands over " PROFILE_FORM, kept.n, kept.k, kept.a, kept.t, kept.s, kept.edition);
}

/* The header hands the library the profile's numbers, the scenario and the run whole and in its order: their bytes
 * stand where they should in a bundle, in fields 01 and 02 and in the first strip's field. */
static void compare_bundle(size_t edition)
{
    const struct whaupfield_profile p = {6, 3, 2, 5, 0x0102, edition};
    const uint8_t opening[2][10] = {{1, 0, 6, 6, 3, 2, 5, 1, 2, 2}, {1, 0, 7, 6, 3, 2, 5, 1, 2, 2}};
    const uint8_t recording[RECORDING] = {1, 2, 3, 4, 5, 6};
    const size_t from[] = {first_field(p) - RECORDING, first_field(p) + ROW + 1};

    write_bundle(p, 0, whaupfield_array_length(p), whaupfield_bundle_length(p));
    for (size_t i = 0; i < sizeof from / sizeof *from; i++, cases++)
        if (memcmp(bundle + from[i], recording, RECORDING) != 0)
            disagree("write_bundle " PROFILE_FORM " lost=0: scenario %d, run %d do not stand at byte %zu",
                     WHAUPFIELD_PROFILE(p), SCENARIO, RUN, from[i]);
    cases++;
    if (memcmp(bundle, opening[edition - 1], 10) != 0)
        disagree("write_bundle " PROFILE_FORM " lost=0: field 01 is another", WHAUPFIELD_PROFILE(p));
}

static int is_refusal(unsigned number)
{
    return number <= WHAUPFIELD_AMBIGUOUS || number == WHAUPFIELD_EDITION;
}

/* Each refusal has a name and a sentence of its own, and so has 0; all other numbers have those of none. */
static void compare_text(unsigned number)
{
    cases++;
    for (unsigned other = 0; other < 256; other++) {
        int same = number == other || (!is_refusal(number) && !is_refusal(other));

        if (same != !strcmp(whaupfield_refusal_name(number), whaupfield_refusal_name(other)) ||
            same != !strcmp(whaupfield_refusal_sentence(number), whaupfield_refusal_sentence(other)))
            disagree("the texts of %u and %u are %s", number, other, same ? "not the same" : "the same");
    }
}

static void compare_texts(void)
{
    for (unsigned number = 0; number < 256; number++)
        compare_text(number);
}

/* A survey's answer, taken apart by the header. */
static void compare_survey(struct whaupfield_profile p, size_t start, size_t most, unsigned outcome,
                           uint64_t position, uint64_t looked)
{
    uint64_t answer = whaupfield_survey(WHAUPFIELD_PROFILE(p), start, most, set, p.k);

    cases++;
    if (WHAUPFIELD_OUTCOME(answer) != outcome || WHAUPFIELD_POSITION(answer) != position ||
        WHAUPFIELD_LOOKED(answer) != looked)
        disagree("survey " PROFILE_FORM " start=%zu most=%zu: outcome %u, position %llu, %llu looked at, "
                 "expected outcome %u, position %llu, %llu looked at",
                 WHAUPFIELD_PROFILE(p), start, most, WHAUPFIELD_OUTCOME(answer),
                 (unsigned long long)WHAUPFIELD_POSITION(answer), (unsigned long long)WHAUPFIELD_LOOKED(answer),
                 outcome, (unsigned long long)position, (unsigned long long)looked);
}

/* The parts of an answer: document 01's M5, M11 and M12, and a position of 22 bits, which is found and then surveyed on
 * its own. */
static void compare_parts(size_t edition)
{
    const struct whaupfield_profile p = {4, 2, 2, 2, 1, edition}, t_5 = {4, 2, 2, 5, 1, edition};
    const struct whaupfield_profile large = {24, 12, 2, 2, 1, edition};
    const size_t start = (size_t)1 << 21;
    uint64_t found = whaupfield_survey(WHAUPFIELD_PROFILE(large), start, 1000, set, large.k), value;

    compare_survey(t_5, 0, 6, WHAUPFIELD_FAILING, 2, 3);
    compare_survey(p, 0, 6, WHAUPFIELD_DONE, 0, 6);
    compare_survey(p, 0, 2, WHAUPFIELD_OPEN, 0, 2);
    compare_survey(p, 6, 0, WHAUPFIELD_DONE, 0, 0);
    compare_survey(large, start, 1000, WHAUPFIELD_FAILING, start + WHAUPFIELD_LOOKED(found) - 1,
                   WHAUPFIELD_LOOKED(found));
    compare_survey(large, WHAUPFIELD_POSITION(found), 1, WHAUPFIELD_FAILING, WHAUPFIELD_POSITION(found), 1);
    value = WHAUPFIELD_VALUE(plan(p, 0, 0, WHAUPFIELD_MAX_PLAN));
    cases++;
    if (value != 4)
        disagree("plan " PROFILE_FORM " lost=0: the value is %llu, expected 4", WHAUPFIELD_PROFILE(p),
                 (unsigned long long)value);
}

/* The inverse of a byte: the byte whose product with it is 1; none for 0, which is not a refusal. */
static void compare_inverse(unsigned a)
{
    uint64_t answer = whaupfield_inverse((uint8_t)a), value = WHAUPFIELD_VALUE(answer);
    unsigned number = WHAUPFIELD_NUMBER(answer), due = a == 0 ? WHAUPFIELD_NO_INVERSE : WHAUPFIELD_OK;
    int right = a == 0 ? value == 0 : value < 256 && whaupfield_product((uint8_t)a, (uint8_t)value) == 1;

    cases++;
    if (number != due || !right)
        disagree("inverse of %u: %u with %llu, expected %u with %s", a, number, (unsigned long long)value, due,
                 a == 0 ? "0" : "the byte whose product with it is 1");
}

static void compare_inverses(void)
{
    for (unsigned a = 0; a < 256; a++)
        compare_inverse(a);
}

/* The version that K6 made, as a whole and in parts. */
static void compare_version(void)
{
    const char *due = "0.4.0";
    char version[40];

    cases++;
    snprintf(version, sizeof version, "%d.%d.%d", WHAUPFIELD_VERSION_MAJOR, WHAUPFIELD_VERSION_MINOR,
             WHAUPFIELD_VERSION_PATCH);
    if (strcmp(version, due) != 0 || strcmp(WHAUPFIELD_VERSION, due) != 0)
        disagree("WHAUPFIELD_VERSION is %s, and its parts are %s, expected %s", WHAUPFIELD_VERSION, version, due);
}

int main(void)
{
    for (size_t i = 0; i < sizeof data; i++)
        data[i] = (uint8_t)(i * i / 7);
    for (int i = 0; i < WHAUPFIELD_MAX_NODES; i++)
        nodes[i] = (uint8_t)i;

    compare_strips(2);
    compare_strips(5);
    compare_strips(255);
    compare_ceilings();
    compare_any_numbers();
    for (size_t edition = 1; edition < 3; edition++) {
        compare_refusals(edition);
        compare_bundle(edition);
        compare_parts(edition);
    }
    compare_five_numbers();
    compare_macro();
    compare_texts();
    compare_inverses();
    compare_version();
    printf("compare: header: %zu profiles, all %zu cases agree\n", profiles, cases);
    return 0;
}
