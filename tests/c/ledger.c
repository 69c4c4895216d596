/*
 * Runs document 01's cases through the C header, and some refusals and damaged maps and sets.
 * Every check prints a line; the status is 1 if one of them fails. A map or a set is compared with all its bytes.
 */
#include "hourledger.h"

#include <stdio.h>
#include <string.h>

/* The maps and sets have no padding, and the layout that the libraries were built for. */
_Static_assert(sizeof(RangeMap) == 8 + HOURLEDGER_PLACES * 17, "the layout of RangeMap");
_Static_assert(sizeof(RangeInclusiveMap) == sizeof(RangeMap), "the layout of RangeInclusiveMap");
_Static_assert(sizeof(RangeSet) == sizeof(RangeMap), "the layout of RangeSet");
_Static_assert(sizeof(RangeInclusiveSet) == sizeof(RangeMap), "the layout of RangeInclusiveSet");
_Static_assert(sizeof(LedgerRange) == 32 && sizeof(LedgerStretch) == 24, "the layout of the answers");

_Static_assert(sizeof(DayReport) == 88, "the layout of DayReport");

static int checks;
static int failures;

static void check(const char *name, bool good) {
    checks++;
    if (!good) {
        failures++;
    }
    printf("%s %s\n", good ? "good" : "WRONG", name);
}

typedef struct Entry {
    int64_t start;
    int64_t end;
    uint8_t value;
} Entry;

/* A list of entries and its length. */
#define ENTRIES(...) (const Entry[]){__VA_ARGS__}, sizeof((const Entry[]){__VA_ARGS__}) / sizeof(Entry)
#define NOTHING NULL, 0

/* As many half-open ranges of one key as there are places, each so many keys after the one before. */
static const Entry *spread(int64_t first, int64_t step, uint8_t value) {
    static Entry entries[HOURLEDGER_PLACES];
    for (int64_t i = 0; i < HOURLEDGER_PLACES; i++) {
        entries[i] = (Entry){first + step * i, first + step * i + 1, value};
    }
    return entries;
}

#define SPREAD(FIRST, STEP, VALUE) spread(FIRST, STEP, VALUE), HOURLEDGER_PLACES

/* Whether the lists hold every second key from the first on, each as a range of its own. */
static bool every_second(const int64_t *starts, const int64_t *ends, size_t count, int64_t first) {
    bool good = true;
    for (size_t i = 0; i < count; i++) {
        const int64_t key = first + 2 * (int64_t)i;
        good = good && starts[i] == key && ends[i] == key + 1;
    }
    return good;
}

static bool is_range(LedgerRange r, uint8_t answer, int64_t start, int64_t end, uint8_t value) {
    return r.answer == answer && r.start == start && r.end == end && r.value == value;
}

static bool is_told(LedgerTold r, uint8_t answer, bool yes) {
    return r.answer == answer && r.yes == yes;
}

static bool is_count(LedgerCount r, uint8_t answer, size_t count) {
    return r.answer == answer && r.count == count;
}

static bool is_stretch(LedgerStretch r, uint8_t answer, size_t place, size_t count) {
    return r.answer == answer && r.place == place && r.count == count;
}

static bool is_order(LedgerOrder r, uint8_t answer, int8_t order) {
    return r.answer == answer && r.order == order;
}

static bool is_applied(LedgerApplied r, uint8_t answer, size_t applied) {
    return r.answer == answer && r.applied == applied;
}

static bool is_total(LedgerTotal r, uint8_t answer, uint64_t total) {
    return r.answer == answer && r.total == total;
}

static bool is_related(LedgerRelated r, uint8_t answer, bool yes) {
    return r.answer == answer && r.yes == yes;
}

static bool is_common(LedgerIntersected r, uint8_t answer, int64_t start, int64_t end) {
    return r.answer == answer && r.start == start && r.end == end;
}

/* The kinds are types of their own, so each helper is written once and made for each. */
#define STORED(MAP, FUNCTION)                                                                     \
    /* The entries in the first places, and 0 in the others. */                                   \
    static MAP FUNCTION##_holding(const Entry *entries, size_t count) {                           \
        MAP m;                                                                                    \
        memset(&m, 0, sizeof m);                                                                  \
        m.count = count;                                                                          \
        for (size_t i = 0; i < count; i++) {                                                      \
            m.starts[i] = entries[i].start;                                                       \
            m.ends[i] = entries[i].end;                                                           \
            m.values[i] = entries[i].value;                                                       \
        }                                                                                         \
        return m;                                                                                 \
    }                                                                                             \
                                                                                                  \
    static bool FUNCTION##_same(const MAP *m, const MAP *other) {                                 \
        return memcmp(m, other, sizeof *m) == 0;                                                  \
    }                                                                                             \
                                                                                                  \
    static bool FUNCTION##_holds(const MAP *m, const Entry *entries, size_t count) {              \
        MAP expected = FUNCTION##_holding(entries, count);                                        \
        return FUNCTION##_same(m, &expected) && FUNCTION##_well_formed(m);                        \
    }

#define MAP_REFUSED(MAP, FUNCTION)                                                                \
    /* A map that is not well formed: 4 from every function that checks, and no change. */        \
    static bool FUNCTION##_refused(MAP *m) {                                                      \
        const MAP before = *m;                                                                    \
        MAP good = FUNCTION##_new();                                                              \
        int64_t starts[2] = {7, 7}, ends[2] = {8, 8};                                             \
        const uint8_t values[2] = {1, 1};                                                         \
        bool refused = !FUNCTION##_well_formed(m)                                                 \
            && is_told(FUNCTION##_is_empty(m), 4, false)                                          \
            && is_count(FUNCTION##_len(m), 4, 0)                                                  \
            && is_range(FUNCTION##_first_range_value(m), 4, 0, 0, 0)                              \
            && is_range(FUNCTION##_last_range_value(m), 4, 0, 0, 0)                               \
            && is_range(FUNCTION##_range_at(m, 0), 4, 0, 0, 0)                                    \
            && is_range(FUNCTION##_get_key_value(m, 0), 4, 0, 0, 0)                               \
            && is_told(FUNCTION##_contains_key(m, 0), 4, false)                                   \
            && FUNCTION##_insert(m, 0, 5, 1) == 4 && FUNCTION##_insert(m, 5, 0, 1) == 4           \
            && FUNCTION##_remove(m, 0, 5) == 4 && FUNCTION##_remove(m, 5, 0) == 4                 \
            && is_stretch(FUNCTION##_overlapping(m, 0, 5), 4, 0, 0)                               \
            && is_told(FUNCTION##_overlaps(m, 0, 5), 4, false)                                    \
            && is_count(FUNCTION##_gaps(m, 0, 5, starts, 2, ends, 2), 4, 0)                       \
            && is_told(FUNCTION##_eq(m, &good), 4, false)                                         \
            && is_told(FUNCTION##_eq(&good, m), 4, false)                                         \
            && is_order(FUNCTION##_cmp(m, &good), 4, 0)                                           \
            && is_order(FUNCTION##_cmp(&good, m), 4, 0)                                           \
            && is_applied(FUNCTION##_extend(m, starts, 2, ends, 2, values, 2), 4, 0);             \
        bool kept = starts[0] == 7 && starts[1] == 7 && ends[0] == 8 && ends[1] == 8;             \
        return refused && kept && FUNCTION##_same(m, &before);                                    \
    }

#define SET_REFUSED(MAP, FUNCTION)                                                                \
    /* A set that is not well formed: 4 from every function that checks, and no change. */        \
    static bool FUNCTION##_refused(MAP *m) {                                                      \
        const MAP before = *m;                                                                    \
        MAP good = FUNCTION##_new();                                                              \
        int64_t starts[2] = {7, 7}, ends[2] = {8, 8};                                             \
        bool refused = !FUNCTION##_well_formed(m)                                                 \
            && is_told(FUNCTION##_is_empty(m), 4, false)                                          \
            && is_count(FUNCTION##_len(m), 4, 0)                                                  \
            && is_range(FUNCTION##_first(m), 4, 0, 0, 0)                                          \
            && is_range(FUNCTION##_last(m), 4, 0, 0, 0)                                           \
            && is_range(FUNCTION##_range_at(m, 0), 4, 0, 0, 0)                                    \
            && is_range(FUNCTION##_get(m, 0), 4, 0, 0, 0)                                         \
            && is_told(FUNCTION##_contains(m, 0), 4, false)                                       \
            && FUNCTION##_insert(m, 0, 5) == 4 && FUNCTION##_insert(m, 5, 0) == 4                 \
            && FUNCTION##_remove(m, 0, 5) == 4 && FUNCTION##_remove(m, 5, 0) == 4                 \
            && is_stretch(FUNCTION##_overlapping(m, 0, 5), 4, 0, 0)                               \
            && is_told(FUNCTION##_overlaps(m, 0, 5), 4, false)                                    \
            && is_count(FUNCTION##_gaps(m, 0, 5, starts, 2, ends, 2), 4, 0)                       \
            && is_told(FUNCTION##_eq(m, &good), 4, false)                                         \
            && is_told(FUNCTION##_eq(&good, m), 4, false)                                         \
            && is_order(FUNCTION##_cmp(m, &good), 4, 0)                                           \
            && is_order(FUNCTION##_cmp(&good, m), 4, 0)                                           \
            && is_applied(FUNCTION##_extend(m, starts, 2, ends, 2), 4, 0)                         \
            && is_count(FUNCTION##_intersection(m, &good, starts, 2, ends, 2), 4, 0)              \
            && is_count(FUNCTION##_intersection(&good, m, starts, 2, ends, 2), 4, 0)              \
            && is_count(FUNCTION##_intersection(m, m, starts, 2, ends, 2), 4, 0)                  \
            && is_count(FUNCTION##_union(m, &good, starts, 2, ends, 2), 4, 0)                     \
            && is_count(FUNCTION##_union(&good, m, starts, 2, ends, 2), 4, 0)                     \
            && is_count(FUNCTION##_union(m, m, starts, 2, ends, 2), 4, 0)                         \
            && is_total(FUNCTION##_total(m), 4, 0);                                               \
        bool kept = starts[0] == 7 && starts[1] == 7 && ends[0] == 8 && ends[1] == 8;             \
        return refused && kept && FUNCTION##_same(m, &before);                                    \
    }

#define DAMAGED(MAP, FUNCTION)                                                                    \
    /* One damage of each sort, of a map or a set of three ranges at 10, 20 and 30. */            \
    static void FUNCTION##_damaged(const MAP *good) {                                             \
        MAP m = *good;                                                                            \
        check(#MAP ", not damaged", FUNCTION##_well_formed(&m));                                  \
        m.count = HOURLEDGER_PLACES + 1;                                                          \
        check(#MAP ", damaged: count 513", FUNCTION##_refused(&m));                               \
        m.count = SIZE_MAX;                                                                       \
        check(#MAP ", damaged: the greatest count", FUNCTION##_refused(&m));                      \
        m = *good;                                                                                \
        m.count = 2;                                                                              \
        check(#MAP ", damaged: count one less", FUNCTION##_refused(&m));                          \
        m = *good;                                                                                \
        m.ends[1] = m.starts[1] - 1;                                                              \
        check(#MAP ", damaged: reversed", FUNCTION##_refused(&m));                                \
        m = *good;                                                                                \
        m.starts[1] = m.starts[0];                                                                \
        check(#MAP ", damaged: overlapping", FUNCTION##_refused(&m));                             \
        m = *good;                                                                                \
        m.starts[0] = 100;                                                                        \
        m.ends[0] = 105;                                                                          \
        check(#MAP ", damaged: out of order", FUNCTION##_refused(&m));                            \
        m = *good;                                                                                \
        m.starts[3] = 1;                                                                          \
        check(#MAP ", damaged: start of an unused place", FUNCTION##_refused(&m));                \
        m = *good;                                                                                \
        m.ends[HOURLEDGER_PLACES - 1] = -1;                                                       \
        check(#MAP ", damaged: end of the last place", FUNCTION##_refused(&m));                   \
        m = *good;                                                                                \
        m.values[HOURLEDGER_PLACES - 1] = 1;                                                      \
        check(#MAP ", damaged: value of the last place", FUNCTION##_refused(&m));                 \
        FUNCTION##_clear(&m);                                                                     \
        check(#MAP ", damaged: clear takes it", FUNCTION##_holds(&m, NOTHING));                   \
    }

#define MAP_HELPERS(MAP, FUNCTION) STORED(MAP, FUNCTION) MAP_REFUSED(MAP, FUNCTION) DAMAGED(MAP, FUNCTION)
#define SET_HELPERS(SET, FUNCTION) STORED(SET, FUNCTION) SET_REFUSED(SET, FUNCTION) DAMAGED(SET, FUNCTION)

MAP_HELPERS(RangeMap, range_map)
MAP_HELPERS(RangeInclusiveMap, range_inclusive_map)
SET_HELPERS(RangeSet, range_set)
SET_HELPERS(RangeInclusiveSet, range_inclusive_set)

static void relations(void) {
    check("intersect 0..5 and 0..3: 0..3", is_common(range_intersect(0, 5, 0, 3), 0, 0, 3));
    check("intersect 0..3 and 0..5: 0..3", is_common(range_intersect(0, 3, 0, 5), 0, 0, 3));
    check("intersect 0..3 and 3..3: 5", is_common(range_intersect(0, 3, 3, 3), 5, 0, 0));
    check("0..3 contains 2", is_related(range_contains(0, 3, 2), 0, true));
    check("0..3 does not contain 3", is_related(range_contains(0, 3, 3), 0, false));
    check("0..3 does not overlap 3..5", is_related(range_overlaps(0, 3, 3, 5), 0, false));
    check("0..3 touches 3..5", is_related(range_touches(0, 3, 3, 5), 0, true));
    check("4..4 touches 3..5: 1", is_related(range_touches(4, 4, 3, 5), 1, false));
    check("0..=3 contains 3", is_related(range_inclusive_contains(0, 3, 3), 0, true));
    check("0..=3 overlaps 3..=5", is_related(range_inclusive_overlaps(0, 3, 3, 5), 0, true));
    check("0..=3 touches 4..=5", is_related(range_inclusive_touches(0, 3, 4, 5), 0, true));
    check("0..=3 does not touch 5..=5", is_related(range_inclusive_touches(0, 3, 5, 5), 0, false));
    check("intersect 0..=3 and 3..=3: 3..=3",
          is_common(range_inclusive_intersect(0, 3, 3, 3), 0, 3, 3));
}

static void half_open_joins(void) {
    RangeMap m = range_map_new();
    check("new: empty", range_map_holds(&m, NOTHING));
    check("insert 0..5>1", range_map_insert(&m, 0, 5, 1) == 0);
    check("insert 5..8>1", range_map_insert(&m, 5, 8, 1) == 0);
    check("0..5>1 and 5..8>1: 0..8>1", range_map_holds(&m, ENTRIES({0, 8, 1})));

    m = range_map_holding(ENTRIES({0, 5, 1}));
    check("insert 5..8>2", range_map_insert(&m, 5, 8, 2) == 0);
    check("0..5>1 and 5..8>2: two ranges", range_map_holds(&m, ENTRIES({0, 5, 1}, {5, 8, 2})));
}

static void half_open_splits(void) {
    RangeMap m = range_map_holding(ENTRIES({0, 8, 1}));
    check("insert 2..4>2", range_map_insert(&m, 2, 4, 2) == 0);
    check("0..8>1 and 2..4>2: three ranges",
          range_map_holds(&m, ENTRIES({0, 2, 1}, {2, 4, 2}, {4, 8, 1})));

    m = range_map_holding(ENTRIES({0, 8, 1}));
    check("remove 3..6", range_map_remove(&m, 3, 6) == 0);
    check("0..8>1 without 3..6: two ranges", range_map_holds(&m, ENTRIES({0, 3, 1}, {6, 8, 1})));

    check("insert 4..4: 1", range_map_insert(&m, 4, 4, 1) == 1);
    check("insert 9..4: 1", range_map_insert(&m, 9, 4, 1) == 1);
    check("remove 4..4: 1", range_map_remove(&m, 4, 4) == 1);
    check("after the refusals", range_map_holds(&m, ENTRIES({0, 3, 1}, {6, 8, 1})));
}

static void half_open_questions(void) {
    const RangeMap m = range_map_holding(ENTRIES({0, 2, 1}, {2, 4, 2}, {6, 8, 1}));
    check("not empty", is_told(range_map_is_empty(&m), 0, false));
    check("count 3", is_count(range_map_len(&m), 0, 3));
    check("first 0..2>1", is_range(range_map_first_range_value(&m), 0, 0, 2, 1));
    check("last 6..8>1", is_range(range_map_last_range_value(&m), 0, 6, 8, 1));
    check("place 1: 2..4>2", is_range(range_map_range_at(&m, 1), 0, 2, 4, 2));
    check("place 3: 5", is_range(range_map_range_at(&m, 3), 5, 0, 0, 0));
    check("get 3: 2..4>2", is_range(range_map_get_key_value(&m, 3), 0, 2, 4, 2));
    check("get 4: 5", is_range(range_map_get_key_value(&m, 4), 5, 0, 0, 0));
    check("get 7, unchecked door", is_range(range_map_get_key_value_unchecked(&m, 7), 0, 6, 8, 1));
    check("contains 7", is_told(range_map_contains_key(&m, 7), 0, true));
    check("contains 8: no", is_told(range_map_contains_key(&m, 8), 0, false));
    check("overlapping 3..7: places 1 and 2", is_stretch(range_map_overlapping(&m, 3, 7), 0, 1, 2));
    check("overlapping 4..6: none", is_stretch(range_map_overlapping(&m, 4, 6), 0, 0, 0));
    check("overlapping 1..1: 1", is_stretch(range_map_overlapping(&m, 1, 1), 1, 0, 0));
    check("overlaps 4..6: no", is_told(range_map_overlaps(&m, 4, 6), 0, false));
    check("overlaps 4..7", is_told(range_map_overlaps(&m, 4, 7), 0, true));
}

static void half_open_gaps(void) {
    const RangeMap m = range_map_holding(ENTRIES({0, 2, 1}, {6, 8, 1}));
    int64_t starts[4] = {91, 92, 93, 94}, ends[4] = {95, 96, 97, 98};
    check("gaps of -1..9 into 2 places: 3", is_count(range_map_gaps(&m, -1, 9, starts, 2, ends, 4), 3, 0));
    check("gaps of 4..4: 1", is_count(range_map_gaps(&m, 4, 4, starts, 4, ends, 4), 1, 0));
    check("the lists after the refusals",
          starts[0] == 91 && starts[1] == 92 && starts[2] == 93 && ends[0] == 95 && ends[3] == 98);
    check("gaps of -1..9: 3 of them", is_count(range_map_gaps(&m, -1, 9, starts, 4, ends, 4), 0, 3));
    check("gaps of -1..9: -1..0, 2..6, 8..9",
          starts[0] == -1 && ends[0] == 0 && starts[1] == 2 && ends[1] == 6 && starts[2] == 8 && ends[2] == 9);
    check("the place past the count", starts[3] == 94 && ends[3] == 98);
    check("gaps, unchecked door", is_count(range_map_gaps_unchecked(&m, 0, 8, starts, 1, ends, 1), 0, 1));
    check("gaps of 0..8: 2..6", starts[0] == 2 && ends[0] == 6);
}

static void half_open_order(void) {
    const RangeMap a = range_map_holding(ENTRIES({0, 2, 1}));
    const RangeMap b = range_map_holding(ENTRIES({0, 2, 1}, {6, 8, 1}));
    const RangeMap c = range_map_holding(ENTRIES({0, 3, 0}));
    check("equal to itself", is_told(range_map_eq(&a, &a), 0, true));
    check("not equal", is_told(range_map_eq(&a, &b), 0, false));
    check("a prefix comes first", is_order(range_map_cmp(&a, &b), 0, -1));
    check("the end before the value", is_order(range_map_cmp(&c, &b), 0, 1));
    check("the order of a map and itself", is_order(range_map_cmp(&b, &b), 0, 0));
}

static void half_open_bulk(void) {
    const int64_t starts[4] = {0, 5, 4, 7}, ends[4] = {5, 8, 4, 9};
    const uint8_t values[4] = {1, 1, 1, 1};
    RangeMap m = range_map_new();
    check("bulk insert with a bad third entry: 1, two applied",
          is_applied(range_map_extend(&m, starts, 4, ends, 4, values, 4), 1, 2));
    check("the two stay", range_map_holds(&m, ENTRIES({0, 8, 1})));
    range_map_clear(&m);
    check("the shortest list decides", is_applied(range_map_extend(&m, starts, 4, ends, 1, values, 3), 0, 1));
    check("one was applied", range_map_holds(&m, ENTRIES({0, 5, 1})));
}

/* 512 ranges of one value at 0..1, 2..3, and so on. */
static void half_open_full(void) {
    RangeMap m = range_map_holding(SPREAD(0, 2, 7));
    const RangeMap full = m;
    check("full: count 512", is_count(range_map_len(&m), 0, HOURLEDGER_PLACES));
    check("full: insert 2000..2001: 2", range_map_insert(&m, 2000, 2001, 7) == 2);
    check("full: unchanged", range_map_same(&m, &full));
    check("full: insert 2000..2001, unchecked door: 2", range_map_insert_unchecked(&m, 2000, 2001, 7) == 2);
    check("full: unchanged again", range_map_same(&m, &full));
    check("full: insert 1..2", range_map_insert(&m, 1, 2, 7) == 0);
    check("full: 511 ranges", is_count(range_map_len(&m), 0, HOURLEDGER_PLACES - 1));
    check("full: 0..3>7 first", is_range(range_map_first_range_value(&m), 0, 0, 3, 7));
    check("full: 2000..2001 fits now", range_map_insert_unchecked(&m, 2000, 2001, 7) == 0);
    check("full: remove all", range_map_remove(&m, INT64_MIN, INT64_MAX) == 0);
    check("full: nothing left", range_map_holds(&m, NOTHING));
}

static void half_open_ends(void) {
    RangeMap m = range_map_new();
    check("insert min..max>3", range_map_insert(&m, INT64_MIN, INT64_MAX, 3) == 0);
    check("min..max>3", range_map_holds(&m, ENTRIES({INT64_MIN, INT64_MAX, 3})));
    check("max is not covered", is_range(range_map_get_key_value(&m, INT64_MAX), 5, 0, 0, 0));
    check("remove, unchecked door", range_map_remove_unchecked(&m, INT64_MIN + 1, INT64_MAX - 1) == 0);
    check("both ends stay",
          range_map_holds(&m, ENTRIES({INT64_MIN, INT64_MIN + 1, 3}, {INT64_MAX - 1, INT64_MAX, 3})));
}

static void half_open_damaged(void) {
    const RangeMap good = range_map_holding(ENTRIES({10, 15, 1}, {20, 25, 1}, {30, 35, 1}));
    range_map_damaged(&good);
    RangeMap m = good;
    m.ends[1] = m.starts[1];
    check("RangeMap, damaged: empty", range_map_refused(&m));
    m = good;
    m.ends[0] = m.starts[1];
    check("RangeMap, damaged: touching equals", range_map_refused(&m));
    m.values[0] = 2;
    check("RangeMap, touching with other values: well formed", range_map_well_formed(&m));
}

/* The byte form: there and back, an output that is too short, and bytes that are no form. */
static void half_open_bytes(void) {
    static const uint8_t written[25] = {0x52, 0x4D, 0x30, 0x31, 1,    0,    0,    0,    0xFE, 0xFF, 0xFF, 0xFF, 0xFF,
                                        0xFF, 0xFF, 0xFF, 5,    0,    0,    0,    0,    0,    0,    0,    7};
    RangeMap m = range_map_holding(ENTRIES({-2, 5, 7}));
    uint8_t out[27], before[27];
    memset(out, 0xAA, sizeof out);
    memcpy(before, out, sizeof out);
    check("-2..5>7 needs 25 bytes", is_count(range_map_write(&m, out, 24), 3, 0) && memcmp(out, before, sizeof out) == 0);
    check("-2..5>7 written", is_count(range_map_write(&m, out, 27), 0, 25) && memcmp(out, written, 25) == 0 && out[25] == 0xAA && out[26] == 0xAA);

    RangeMap other;
    memset(&other, 0x55, sizeof other);
    const RangeMap littered = other;
    check("a spare byte is 6", range_map_read(&other, out, 26) == 6 && range_map_same(&other, &littered));
    check("a missing byte is 6", range_map_read(&other, out, 24) == 6 && range_map_same(&other, &littered));
    check("25 bytes read back", range_map_read(&other, out, 25) == 0 && range_map_same(&other, &m));

    m.values[HOURLEDGER_PLACES - 1] = 1;
    memcpy(before, out, sizeof out);
    check("a damaged map is not written", is_count(range_map_write(&m, out, 27), 4, 0) && memcmp(out, before, sizeof out) == 0);
}

static void inclusive_cases(void) {
    RangeInclusiveMap m = range_inclusive_map_new();
    check("insert 1..=3>7", range_inclusive_map_insert(&m, 1, 3, 7) == 0);
    check("insert 4..=6>7", range_inclusive_map_insert(&m, 4, 6, 7) == 0);
    check("1..=3>7 then 4..=6>7: 1..=6>7", range_inclusive_map_holds(&m, ENTRIES({1, 6, 7})));
    check("insert 5..=5", range_inclusive_map_insert(&m, 5, 5, 8) == 0);
    check("1..=4, 5..=5, 6..=6", range_inclusive_map_holds(&m, ENTRIES({1, 4, 7}, {5, 5, 8}, {6, 6, 7})));
    check("remove 2..=5", range_inclusive_map_remove(&m, 2, 5) == 0);
    check("1..=1, 6..=6", range_inclusive_map_holds(&m, ENTRIES({1, 1, 7}, {6, 6, 7})));
    check("insert 9..=4: 1", range_inclusive_map_insert(&m, 9, 4, 7) == 1);
    check("after the refusal", range_inclusive_map_holds(&m, ENTRIES({1, 1, 7}, {6, 6, 7})));
}

static void inclusive_ends(void) {
    RangeInclusiveMap m = range_inclusive_map_holding(ENTRIES({INT64_MAX - 1, INT64_MAX - 1, 4}));
    check("insert max..=max>4", range_inclusive_map_insert(&m, INT64_MAX, INT64_MAX, 4) == 0);
    check("the greatest key joins its neighbour",
          range_inclusive_map_holds(&m, ENTRIES({INT64_MAX - 1, INT64_MAX, 4})));
    check("get max", is_range(range_inclusive_map_get_key_value(&m, INT64_MAX), 0, INT64_MAX - 1, INT64_MAX, 4));
    check("insert the full range", range_inclusive_map_insert(&m, INT64_MIN, INT64_MAX, 1) == 0);
    check("the full range is held", range_inclusive_map_holds(&m, ENTRIES({INT64_MIN, INT64_MAX, 1})));
    int64_t start = 5, end = 6;
    check("it has no gap",
          is_count(range_inclusive_map_gaps(&m, INT64_MIN, INT64_MAX, &start, 1, &end, 1), 0, 0));
    check("remove max..=max", range_inclusive_map_remove_unchecked(&m, INT64_MAX, INT64_MAX) == 0);
    check("all keys but the greatest", range_inclusive_map_holds(&m, ENTRIES({INT64_MIN, INT64_MAX - 1, 1})));
    check("now it has one",
          is_count(range_inclusive_map_gaps_unchecked(&m, INT64_MIN, INT64_MAX, &start, 1, &end, 1), 0, 1));
    check("the gap max..=max", start == INT64_MAX && end == INT64_MAX);
}

static void inclusive_questions(void) {
    const RangeInclusiveMap m = range_inclusive_map_holding(ENTRIES({0, 1, 1}, {2, 3, 2}, {6, 7, 1}));
    check("inclusive, not empty", is_told(range_inclusive_map_is_empty(&m), 0, false));
    check("inclusive, count 3", is_count(range_inclusive_map_len(&m), 0, 3));
    check("inclusive, first", is_range(range_inclusive_map_first_range_value(&m), 0, 0, 1, 1));
    check("inclusive, last", is_range(range_inclusive_map_last_range_value(&m), 0, 6, 7, 1));
    check("inclusive, place 1", is_range(range_inclusive_map_range_at(&m, 1), 0, 2, 3, 2));
    check("inclusive, get 3, unchecked door",
          is_range(range_inclusive_map_get_key_value_unchecked(&m, 3), 0, 2, 3, 2));
    check("inclusive, contains 4: no", is_told(range_inclusive_map_contains_key(&m, 4), 0, false));
    check("inclusive, overlapping 3..=6: places 1 and 2",
          is_stretch(range_inclusive_map_overlapping(&m, 3, 6), 0, 1, 2));
    check("inclusive, overlaps 4..=5: no", is_told(range_inclusive_map_overlaps(&m, 4, 5), 0, false));
    check("inclusive, equal to itself", is_told(range_inclusive_map_eq(&m, &m), 0, true));
    check("inclusive, the order of a map and itself", is_order(range_inclusive_map_cmp(&m, &m), 0, 0));
}

/* 512 ranges of one value at 0..=0, 2..=2, and so on, by bulk insert. */
static void inclusive_full(void) {
    static int64_t keys[HOURLEDGER_PLACES];
    static uint8_t values[HOURLEDGER_PLACES];
    for (int64_t i = 0; i < HOURLEDGER_PLACES; i++) {
        keys[i] = 2 * i;
        values[i] = 7;
    }
    RangeInclusiveMap m = range_inclusive_map_new();
    const size_t n = HOURLEDGER_PLACES;
    const LedgerApplied applied = range_inclusive_map_extend(&m, keys, n, keys, n, values, n);
    check("inclusive, full: bulk insert of 512", is_applied(applied, 0, n));
    const RangeInclusiveMap full = m;
    check("inclusive, full: insert 2000..=2000: 2", range_inclusive_map_insert_unchecked(&m, 2000, 2000, 7) == 2);
    check("inclusive, full: unchanged", range_inclusive_map_same(&m, &full));
    check("inclusive, full: insert 1..=1", range_inclusive_map_insert(&m, 1, 1, 7) == 0);
    check("inclusive, full: 511 ranges", is_count(range_inclusive_map_len(&m), 0, n - 1));
    check("inclusive, full: 0..=2>7 first", is_range(range_inclusive_map_first_range_value(&m), 0, 0, 2, 7));
}

static void inclusive_damaged(void) {
    const RangeInclusiveMap good = range_inclusive_map_holding(ENTRIES({10, 15, 1}, {20, 25, 1}, {30, 35, 1}));
    range_inclusive_map_damaged(&good);
    RangeInclusiveMap m = good;
    m.ends[0] = m.starts[1] - 1;
    check("RangeInclusiveMap, damaged: touching equals", range_inclusive_map_refused(&m));
    m.values[0] = 2;
    check("RangeInclusiveMap, touching with other values: well formed", range_inclusive_map_well_formed(&m));
    m.ends[0] = m.starts[1];
    check("RangeInclusiveMap, damaged: a common key", range_inclusive_map_refused(&m));
}

/* Document 01's November report, and the refusals in their order. */
static void day_reports(void) {
    RangeMap m = range_map_new();
    check("November is off duty", range_map_insert(&m, 1730606400, 1730696400, 1) == 0);
    check("and driving for a while", range_map_insert(&m, 1730628000, 1730653200, 3) == 0);
    DayReport r = range_map_day_report(&m, 0, 2024, 11, 3);
    check("the November report: the day", r.answer == 0 && r.start == 1730606400 && r.end == 1730696400);
    check("the November report: seconds", r.off_duty == 64800 && r.sleeper_berth == 0 && r.driving == 25200
                                              && r.on_duty == 0 && r.unrecorded == 0);
    check("the November report: hours", r.off_duty_hours == 18.0 && r.sleeper_berth_hours == 0.0 && r.driving_hours == 7.0
                                            && r.on_duty_hours == 0.0 && r.unrecorded_hours == 0.0);
    DayReport inner = range_map_day_report_unchecked(&m, 0, 2024, 11, 4);
    check("the day after is unrecorded", inner.answer == 0 && inner.unrecorded == 86400 && inner.unrecorded_hours == 24.0);
    check("a bad date", range_map_day_report(&m, 0, 2023, 2, 29).answer == 8);
    check("a bad zone", range_map_day_report(&m, 7, 2024, 11, 3).answer == 8);
    m.values[1] = 0;
    r = range_map_day_report(&m, 0, 2024, 11, 3);
    check("status 0 in the day", r.answer == 10 && r.start == 0 && r.off_duty == 0 && r.off_duty_hours == 0.0);
    check("status 0 on another day", range_map_day_report(&m, 0, 2024, 11, 4).answer == 0);
    m.ends[511] = 1;
    check("a damaged map", range_map_day_report(&m, 7, 2024, 11, 3).answer == 4);
}

/* A text as bytes, and how many there are. */
#define TEXT(text) (const uint8_t *)(text), strlen(text)

/* The ranges of a query of A and B in 0..20 into no place: what is answered but for 0 and 3 does not depend on the lists. */
static uint8_t answer_to(const RangeMap *a, const RangeMap *b, const char *text) {
    int64_t start = 91, end = 92;
    const LedgerCount listed = range_map_query(a, b, 0, 20, TEXT(text), &start, 0, &end, 0);
    const LedgerTold told = range_map_query_at(a, b, 0, 20, TEXT(text), 30);
    const bool agree = listed.answer == told.answer || (listed.answer == 3 && told.answer == 0);
    return agree && listed.count == 0 && !told.yes && start == 91 && end == 92 ? told.answer : UINT8_MAX;
}

static const char sixteen[] = "!!!!!!!!!!!!!!!!A3";
static const char seventeen[] = "!!!!!!!!!!!!!!!!!A3";
static const char bytes_64[] = "!!A3&A3&A3&A3&A3&A3&A3&A3&A3&A3&A3&A3&A3&A3&A3&A3&A3&A3&A3&A3&A3";
static const char bytes_65[] = "A3|A3|A3|A3|A3|A3|A3|A3|A3|A3|A3|A3|A3|A3|A3|A3|A3|A3|A3|A3|A3|A3";

/* Document 01's cases of queries, and what else its words decide. */
static void query_texts(void) {
    const RangeMap a = range_map_holding(ENTRIES({0, 5, 1}, {5, 8, 3}, {10, 12, 3}));
    const RangeMap b = range_map_holding(ENTRIES({4, 7, 1}, {7, 20, 2}));
    check("query A3&!B1 parses", answer_to(&a, &b, "A3&!B1") == 0);
    check("query A3&: 7", answer_to(&a, &b, "A3&") == 7);
    check("query A: 7", answer_to(&a, &b, "A") == 7);
    check("query of no bytes: 7", answer_to(&a, &b, "") == 7);
    check("query with 17 !: 7", answer_to(&a, &b, seventeen) == 7);
    check("query with 16 ! parses", answer_to(&a, &b, sixteen) == 0);
    check("query A12: 7", answer_to(&a, &b, "A12") == 7);
    check("query with a space: 7", answer_to(&a, &b, "A3 &B1") == 7);
    check("query (A3: 7", answer_to(&a, &b, "(A3") == 7);
    check("query A3): 7", answer_to(&a, &b, "A3)") == 7);
    check("query of 64 bytes parses", strlen(bytes_64) == 64 && answer_to(&a, &b, bytes_64) == 0);
    check("query of 65 bytes: 7", strlen(bytes_65) == 65 && answer_to(&a, &b, bytes_65) == 7);
}

static void query_ranges(void) {
    const RangeMap a = range_map_holding(ENTRIES({0, 5, 1}, {5, 8, 3}, {10, 12, 3}));
    const RangeMap b = range_map_holding(ENTRIES({4, 7, 1}, {7, 20, 2}));
    int64_t starts[3] = {91, 92, 93}, ends[3] = {94, 95, 96};
    check("A3&!B1 into 1 place: 3", is_count(range_map_query(&a, &b, 0, 20, TEXT("A3&!B1"), starts, 1, ends, 3), 3, 0));
    check("A3&!B1 into 1 place of ends: 3",
          is_count(range_map_query_unchecked(&a, &b, 0, 20, TEXT("A3&!B1"), starts, 3, ends, 1), 3, 0));
    check("the lists after the refusals", starts[0] == 91 && starts[1] == 92 && ends[0] == 94 && ends[1] == 95);
    check("A3&!B1 in 0..20: two ranges", is_count(range_map_query(&a, &b, 0, 20, TEXT("A3&!B1"), starts, 3, ends, 3), 0, 2));
    check("A3&!B1 in 0..20: 7..8, 10..12", starts[0] == 7 && ends[0] == 8 && starts[1] == 10 && ends[1] == 12);
    check("the place past the count, query", starts[2] == 93 && ends[2] == 96);
    check("A1|A3 in 1..20: two ranges", is_count(range_map_query(&a, &b, 1, 20, TEXT("A1|A3"), starts, 2, ends, 2), 0, 2));
    check("A1|A3 in 1..20: 1..8, 10..12", starts[0] == 1 && ends[0] == 8 && starts[1] == 10 && ends[1] == 12);
    check("A1|A3&B1 in 0..20: one range", is_count(range_map_query(&a, &b, 0, 20, TEXT("A1|A3&B1"), starts, 3, ends, 3), 0, 1));
    check("A1|A3&B1 in 0..20: 0..7", starts[0] == 0 && ends[0] == 7 && starts[1] == 10);
    check("(A1|A3)&B1, unchecked door", is_count(range_map_query_unchecked(&a, &b, 0, 20, TEXT("(A1|A3)&B1"), starts, 1, ends, 1), 0, 1));
    check("(A1|A3)&B1, unchecked door: 4..7", starts[0] == 4 && ends[0] == 7);
    check("!A3 of all keys", is_count(range_map_query(&a, &b, INT64_MIN, INT64_MAX, TEXT("!A3"), starts, 3, ends, 3), 0, 3));
    check("!A3 of all keys: min..5, 8..10, 12..max", starts[0] == INT64_MIN && ends[0] == 5 && starts[1] == 8
                                                         && ends[1] == 10 && starts[2] == 12 && ends[2] == INT64_MAX);
    check("A3&B1 of a map and itself", is_count(range_map_query(&a, &a, 0, 20, TEXT("A3&B1"), starts, 0, ends, 0), 0, 0));
    check("A3&B3 of a map and itself", is_count(range_map_query(&a, &a, 0, 20, TEXT("A3&B3"), starts, 2, ends, 2), 0, 2));
}

static void query_instants(void) {
    const RangeMap a = range_map_holding(ENTRIES({0, 5, 1}, {5, 8, 3}, {10, 12, 3}));
    const RangeMap b = range_map_holding(ENTRIES({4, 7, 1}, {7, 20, 2}));
    check("7 is in A3&!B1", is_told(range_map_query_at(&a, &b, 0, 20, TEXT("A3&!B1"), 7), 0, true));
    check("6 is not", is_told(range_map_query_at(&a, &b, 0, 20, TEXT("A3&!B1"), 6), 0, false));
    check("8 is not", is_told(range_map_query_at(&a, &b, 0, 20, TEXT("A3&!B1"), 8), 0, false));
    check("11 is, unchecked door", is_told(range_map_query_at_unchecked(&a, &b, 0, 20, TEXT("A3&!B1"), 11), 0, true));
    check("the window's end is not", is_told(range_map_query_at(&a, &b, 0, 11, TEXT("A3&!B1"), 11), 0, false));
    check("nor is what lies before the window", is_told(range_map_query_at(&a, &b, 8, 20, TEXT("A3&!B1"), 7), 0, false));
    check("!A3 outside the window: no", is_told(range_map_query_at(&a, &b, 0, 20, TEXT("!A3"), 20), 0, false));
    check("!A3 outside the window, unchecked door: no", is_told(range_map_query_at_unchecked(&a, &b, 0, 20, TEXT("!A3"), -1), 0, false));
    check("the least key", is_told(range_map_query_at(&a, &b, INT64_MIN, INT64_MAX, TEXT("!A3"), INT64_MIN), 0, true));
    check("the greatest key is in no window", is_told(range_map_query_at(&a, &b, INT64_MIN, INT64_MAX, TEXT("!A3"), INT64_MAX), 0, false));
}

/* 4, 1, 7, 3 in their order, and no memory is changed. */
static void query_refusals(void) {
    const RangeMap good = range_map_holding(ENTRIES({0, 5, 1}, {5, 8, 3}, {10, 12, 3}));
    RangeMap damaged = good;
    damaged.starts[HOURLEDGER_PLACES - 1] = 1;
    const RangeMap before = damaged;
    int64_t starts[2] = {91, 92}, ends[2] = {93, 94};
    check("query, A damaged: 4", is_count(range_map_query(&damaged, &good, 0, 20, TEXT("A3"), starts, 2, ends, 2), 4, 0));
    check("query, B damaged: 4", is_count(range_map_query(&good, &damaged, 0, 20, TEXT("A3"), starts, 2, ends, 2), 4, 0));
    check("query, both damaged: 4", is_count(range_map_query(&damaged, &damaged, 9, 4, TEXT("A3&"), starts, 0, ends, 0), 4, 0));
    check("query, 4 before 1", is_count(range_map_query(&good, &damaged, 4, 4, TEXT("A3&"), starts, 0, ends, 0), 4, 0));
    check("query, window 4..4: 1", is_count(range_map_query(&good, &good, 4, 4, TEXT("A3"), starts, 2, ends, 2), 1, 0));
    check("query, window 9..4: 1, before 7", is_count(range_map_query(&good, &good, 9, 4, TEXT("A3&"), starts, 0, ends, 0), 1, 0));
    check("query, 7 before 3", is_count(range_map_query(&good, &good, 0, 20, TEXT("A3&"), starts, 0, ends, 0), 7, 0));
    check("query, 3", is_count(range_map_query(&good, &good, 0, 20, TEXT("A3"), starts, 2, ends, 1), 3, 0));
    check("query, unchecked door, window 9..4: 1",
          is_count(range_map_query_unchecked(&good, &good, 9, 4, TEXT("A3&"), starts, 2, ends, 2), 1, 0));
    check("query, unchecked door: 7",
          is_count(range_map_query_unchecked(&good, &good, 0, 20, TEXT("A3&"), starts, 2, ends, 2), 7, 0));
    check("query, the lists as they were", starts[0] == 91 && starts[1] == 92 && ends[0] == 93 && ends[1] == 94);
    check("instant, A damaged: 4", is_told(range_map_query_at(&damaged, &good, 9, 4, TEXT("A3&"), 5), 4, false));
    check("instant, B damaged: 4", is_told(range_map_query_at(&good, &damaged, 9, 4, TEXT("A3&"), 5), 4, false));
    check("instant, window 9..4: 1", is_told(range_map_query_at(&good, &good, 9, 4, TEXT("A3&"), 5), 1, false));
    check("instant, window 4..4, unchecked door: 1", is_told(range_map_query_at_unchecked(&good, &good, 4, 4, TEXT("A3"), 4), 1, false));
    check("instant, 7 outside the window too", is_told(range_map_query_at(&good, &good, 0, 4, TEXT("A3&"), 5), 7, false));
    check("instant, unchecked door: 7", is_told(range_map_query_at_unchecked(&good, &good, 0, 20, TEXT("A3&"), 5), 7, false));
    check("query, the damaged map as it was", range_map_same(&damaged, &before));
}

/* 512 ranges of one key and 512 others: what neither map holds. */
static void query_longest(void) {
    static int64_t starts[HOURLEDGER_QUERY], ends[HOURLEDGER_QUERY];
    const RangeMap a = range_map_holding(SPREAD(0, 4, 0)), b = range_map_holding(SPREAD(2, 4, 0));
    const RangeMap a_before = a, b_before = b;
    const size_t n = HOURLEDGER_QUERY;
    check("the longest result into one place less: 3",
          is_count(range_map_query(&a, &b, -1, 2048, TEXT("!A0&!B0"), starts, n - 1, ends, n), 3, 0));
    check("the longest result", is_count(range_map_query(&a, &b, -1, 2048, TEXT("!A0&!B0"), starts, n, ends, n), 0, n));
    check("the longest result: every second key", every_second(starts, ends, n, -1));
    check("the longest result: the maps as they were", range_map_same(&a, &a_before) && range_map_same(&b, &b_before));
}

static void half_open_set_edits(void) {
    RangeSet m = range_set_new();
    check("set, new: empty", range_set_holds(&m, NOTHING));
    check("set, insert 0..5", range_set_insert(&m, 0, 5) == 0);
    check("set, insert 5..8", range_set_insert(&m, 5, 8) == 0);
    check("set, 0..5 and 5..8: 0..8", range_set_holds(&m, ENTRIES({0, 8, 0})));
    check("set, remove 3..6", range_set_remove(&m, 3, 6) == 0);
    check("set, 0..8 without 3..6: two ranges", range_set_holds(&m, ENTRIES({0, 3, 0}, {6, 8, 0})));
    check("set, insert 4..4: 1", range_set_insert(&m, 4, 4) == 1);
    check("set, insert 9..4: 1", range_set_insert(&m, 9, 4) == 1);
    check("set, remove 4..4: 1", range_set_remove(&m, 4, 4) == 1);
    check("set, after the refusals", range_set_holds(&m, ENTRIES({0, 3, 0}, {6, 8, 0})));

    const int64_t starts[4] = {3, 20, 4, 7}, ends[4] = {6, 21, 4, 9};
    check("set, bulk insert with a bad third range: 1, two applied",
          is_applied(range_set_extend(&m, starts, 4, ends, 4), 1, 2));
    check("set, the two stay", range_set_holds(&m, ENTRIES({0, 8, 0}, {20, 21, 0})));
    check("set, the shorter list decides", is_applied(range_set_extend(&m, starts, 4, ends, 2), 0, 2));
}

static void half_open_set_questions(void) {
    const RangeSet m = range_set_holding(ENTRIES({0, 2, 0}, {6, 8, 0}));
    const RangeSet other = range_set_holding(ENTRIES({0, 3, 0}));
    check("set, not empty", is_told(range_set_is_empty(&m), 0, false));
    check("set, count 2", is_count(range_set_len(&m), 0, 2));
    check("set, first 0..2", is_range(range_set_first(&m), 0, 0, 2, 0));
    check("set, last 6..8", is_range(range_set_last(&m), 0, 6, 8, 0));
    check("set, place 1: 6..8", is_range(range_set_range_at(&m, 1), 0, 6, 8, 0));
    check("set, place 2: 5", is_range(range_set_range_at(&m, 2), 5, 0, 0, 0));
    check("set, get 7: 6..8", is_range(range_set_get(&m, 7), 0, 6, 8, 0));
    check("set, get 2: 5", is_range(range_set_get(&m, 2), 5, 0, 0, 0));
    check("set, contains 1", is_told(range_set_contains(&m, 1), 0, true));
    check("set, contains 8: no", is_told(range_set_contains(&m, 8), 0, false));
    check("set, overlapping 1..7: places 0 and 1", is_stretch(range_set_overlapping(&m, 1, 7), 0, 0, 2));
    check("set, overlaps 2..6: no", is_told(range_set_overlaps(&m, 2, 6), 0, false));
    check("set, equal to itself", is_told(range_set_eq(&m, &m), 0, true));
    check("set, not equal", is_told(range_set_eq(&m, &other), 0, false));
    check("set, the lesser end comes first", is_order(range_set_cmp(&m, &other), 0, -1));

    int64_t starts[2] = {91, 92}, ends[2] = {93, 94};
    check("set, gaps of 0..8", is_count(range_set_gaps(&m, 0, 8, starts, 2, ends, 2), 0, 1));
    check("set, gaps of 0..8: 2..6", starts[0] == 2 && ends[0] == 6 && starts[1] == 92 && ends[1] == 94);
}

/* 512 ranges at 0..1, 2..3, and so on. */
static void half_open_set_full(void) {
    RangeSet m = range_set_holding(SPREAD(0, 2, 0));
    const RangeSet full = m;
    check("set, full: insert 2000..2001: 2", range_set_insert(&m, 2000, 2001) == 2);
    check("set, full: unchanged", range_set_same(&m, &full));
    check("set, full: insert 1..2", range_set_insert(&m, 1, 2) == 0);
    check("set, full: 511 ranges", is_count(range_set_len(&m), 0, HOURLEDGER_PLACES - 1));
    check("set, full: 0..3 first", is_range(range_set_first(&m), 0, 0, 3, 0));
}

static void half_open_set_operations(void) {
    const RangeSet a = range_set_holding(ENTRIES({0, 3, 0}));
    const RangeSet b = range_set_holding(ENTRIES({3, 5, 0}));
    const RangeSet c = range_set_holding(ENTRIES({2, 5, 0}));
    int64_t starts[3] = {91, 92, 93}, ends[3] = {94, 95, 96};
    check("union of {0..3} and {3..5} into 1 place: 3", is_count(range_set_union(&a, &b, starts, 1, ends, 3), 3, 0));
    check("the lists after the refusal", starts[0] == 91 && starts[1] == 92 && ends[0] == 94 && ends[1] == 95);
    check("union of {0..3} and {3..5}: two ranges", is_count(range_set_union(&a, &b, starts, 3, ends, 3), 0, 2));
    check("union of {0..3} and {3..5}: 0..3, 3..5",
          starts[0] == 0 && ends[0] == 3 && starts[1] == 3 && ends[1] == 5);
    check("the place past the count, union", starts[2] == 93 && ends[2] == 96);
    check("union of {0..3} and {2..5}: one range", is_count(range_set_union(&a, &c, starts, 3, ends, 3), 0, 1));
    check("union of {0..3} and {2..5}: 0..5", starts[0] == 0 && ends[0] == 5);
    check("the places past the count, union", starts[1] == 3 && ends[1] == 5 && starts[2] == 93 && ends[2] == 96);
    check("union of a set and itself", is_count(range_set_union(&b, &b, starts, 1, ends, 1), 0, 1));
    check("union of {3..5} and itself: 3..5", starts[0] == 3 && ends[0] == 5);
    check("intersection of {0..3} and {2..5}: one range",
          is_count(range_set_intersection(&a, &c, starts, 3, ends, 3), 0, 1));
    check("intersection of {0..3} and {2..5}: 2..3", starts[0] == 2 && ends[0] == 3);
    check("intersection into no place: 3", is_count(range_set_intersection(&a, &c, starts, 0, ends, 3), 3, 0));
    check("intersection of {0..3} and {3..5}: nothing",
          is_count(range_set_intersection(&a, &b, starts, 0, ends, 0), 0, 0));
    check("the lists as they were", starts[0] == 2 && ends[0] == 3 && starts[2] == 93 && ends[2] == 96);

    const RangeSet all = range_set_holding(ENTRIES({INT64_MIN, INT64_MAX, 0}));
    const RangeSet none = range_set_new();
    check("total of {0..3}: 3", is_total(range_set_total(&a), 0, 3));
    check("total of nothing: 0", is_total(range_set_total(&none), 0, 0));
    check("total of min..max: 2^64 - 1", is_total(range_set_total(&all), 0, UINT64_MAX));
}

/* 512 ranges of one key and 512 others: their union needs 1024 places, and no set is made of it. */
static void half_open_set_long_union(void) {
    static int64_t starts[HOURLEDGER_UNION], ends[HOURLEDGER_UNION];
    const RangeSet a = range_set_holding(SPREAD(0, 4, 0)), b = range_set_holding(SPREAD(2, 4, 0));
    const size_t n = HOURLEDGER_UNION;
    check("a long union", is_count(range_set_union(&a, &b, starts, n, ends, n), 0, n));
    check("a long union: every second key", every_second(starts, ends, n, 0));
    check("a long union into one place less: 3", is_count(range_set_union(&a, &b, starts, n, ends, n - 1), 3, 0));
}

static void half_open_set_damaged(void) {
    const RangeSet good = range_set_holding(ENTRIES({10, 15, 0}, {20, 25, 0}, {30, 35, 0}));
    range_set_damaged(&good);
    RangeSet m = good;
    m.ends[0] = m.starts[1];
    check("RangeSet, damaged: touching", range_set_refused(&m));
    m.values[0] = 1;
    check("RangeSet, damaged: touching with other values", range_set_refused(&m));
    m = good;
    m.values[1] = 1;
    check("RangeSet, damaged: a value in a used place", range_set_refused(&m));
}

static void inclusive_set_cases(void) {
    RangeInclusiveSet m = range_inclusive_set_new();
    check("inclusive set, insert 1..=3", range_inclusive_set_insert(&m, 1, 3) == 0);
    check("inclusive set, insert 4..=6", range_inclusive_set_insert(&m, 4, 6) == 0);
    check("inclusive set, 1..=3 then 4..=6: 1..=6", range_inclusive_set_holds(&m, ENTRIES({1, 6, 0})));
    check("inclusive set, remove 2..=5", range_inclusive_set_remove(&m, 2, 5) == 0);
    check("inclusive set, insert 5..=5", range_inclusive_set_insert(&m, 5, 5) == 0);
    check("inclusive set, 1..=1, 5..=6", range_inclusive_set_holds(&m, ENTRIES({1, 1, 0}, {5, 6, 0})));
    check("inclusive set, insert 9..=4: 1", range_inclusive_set_insert(&m, 9, 4) == 1);
    check("inclusive set, get 6", is_range(range_inclusive_set_get(&m, 6), 0, 5, 6, 0));
    check("inclusive set, contains 4: no", is_told(range_inclusive_set_contains(&m, 4), 0, false));
    check("inclusive set, first", is_range(range_inclusive_set_first(&m), 0, 1, 1, 0));
    check("inclusive set, last", is_range(range_inclusive_set_last(&m), 0, 5, 6, 0));
    check("inclusive set, place 1", is_range(range_inclusive_set_range_at(&m, 1), 0, 5, 6, 0));
    check("inclusive set, count 2", is_count(range_inclusive_set_len(&m), 0, 2));
    check("inclusive set, not empty", is_told(range_inclusive_set_is_empty(&m), 0, false));
    check("inclusive set, overlapping 1..=4: place 0",
          is_stretch(range_inclusive_set_overlapping(&m, 1, 4), 0, 0, 1));
    check("inclusive set, overlaps 2..=4: no", is_told(range_inclusive_set_overlaps(&m, 2, 4), 0, false));
    check("inclusive set, equal to itself", is_told(range_inclusive_set_eq(&m, &m), 0, true));
    check("inclusive set, the order of a set and itself", is_order(range_inclusive_set_cmp(&m, &m), 0, 0));
}

static void inclusive_set_ends(void) {
    const int64_t keys[3] = {INT64_MAX - 1, INT64_MAX, INT64_MIN};
    RangeInclusiveSet m = range_inclusive_set_new();
    check("inclusive set, bulk insert", is_applied(range_inclusive_set_extend(&m, keys, 3, keys, 3), 0, 3));
    check("inclusive set, the greatest key joins its neighbour",
          range_inclusive_set_holds(&m, ENTRIES({INT64_MIN, INT64_MIN, 0}, {INT64_MAX - 1, INT64_MAX, 0})));
    int64_t start = 5, end = 6;
    check("inclusive set, one gap",
          is_count(range_inclusive_set_gaps(&m, INT64_MIN, INT64_MAX, &start, 1, &end, 1), 0, 1));
    check("inclusive set, the gap between the ends", start == INT64_MIN + 1 && end == INT64_MAX - 2);
    check("inclusive set, insert the full range", range_inclusive_set_insert(&m, INT64_MIN, INT64_MAX) == 0);
    check("inclusive set, the full range is held",
          range_inclusive_set_holds(&m, ENTRIES({INT64_MIN, INT64_MAX, 0})));
}

static void inclusive_set_operations(void) {
    const RangeInclusiveSet a = range_inclusive_set_holding(ENTRIES({0, 2, 0}));
    const RangeInclusiveSet b = range_inclusive_set_holding(ENTRIES({3, 5, 0}));
    const RangeInclusiveSet c = range_inclusive_set_holding(ENTRIES({2, 5, 0}));
    int64_t starts[3] = {91, 92, 93}, ends[3] = {94, 95, 96};
    check("inclusive, union of {0..=2} and {3..=5}: two ranges",
          is_count(range_inclusive_set_union(&a, &b, starts, 3, ends, 3), 0, 2));
    check("inclusive, union of {0..=2} and {3..=5}: 0..=2, 3..=5",
          starts[0] == 0 && ends[0] == 2 && starts[1] == 3 && ends[1] == 5 && starts[2] == 93 && ends[2] == 96);
    check("inclusive, union of {0..=2} and {2..=5}: one range",
          is_count(range_inclusive_set_union(&a, &c, starts, 3, ends, 3), 0, 1));
    check("inclusive, union of {0..=2} and {2..=5}: 0..=5", starts[0] == 0 && ends[0] == 5 && starts[1] == 3);
    check("inclusive, intersection of {0..=2} and {2..=5}: one range",
          is_count(range_inclusive_set_intersection(&a, &c, starts, 3, ends, 3), 0, 1));
    check("inclusive, intersection of {0..=2} and {2..=5}: 2..=2", starts[0] == 2 && ends[0] == 2);
    check("inclusive, intersection of {0..=2} and {3..=5}: nothing",
          is_count(range_inclusive_set_intersection(&a, &b, starts, 0, ends, 0), 0, 0));
    check("inclusive, total of {0..=2}: 3", is_total(range_inclusive_set_total(&a), 0, 3));

    RangeInclusiveSet all = range_inclusive_set_holding(ENTRIES({INT64_MIN, INT64_MAX, 0}));
    check("inclusive, union with the full range",
          is_count(range_inclusive_set_union(&all, &c, starts, 1, ends, 1), 0, 1));
    check("inclusive, union with the full range: the full range", starts[0] == INT64_MIN && ends[0] == INT64_MAX);
    check("inclusive, total of the full range: 9", is_total(range_inclusive_set_total(&all), 9, 0));
    all.ends[0] = INT64_MAX - 1;
    check("inclusive, total without the greatest key: 2^64 - 1",
          is_total(range_inclusive_set_total(&all), 0, UINT64_MAX));
}

static void inclusive_set_damaged(void) {
    const RangeInclusiveSet good = range_inclusive_set_holding(ENTRIES({10, 15, 0}, {20, 25, 0}, {30, 35, 0}));
    range_inclusive_set_damaged(&good);
    RangeInclusiveSet m = good;
    m.ends[0] = m.starts[1] - 1;
    check("RangeInclusiveSet, damaged: touching", range_inclusive_set_refused(&m));
    m = good;
    m.values[1] = 1;
    check("RangeInclusiveSet, damaged: a value in a used place", range_inclusive_set_refused(&m));
}

int main(void) {
    relations();
    half_open_joins();
    half_open_splits();
    half_open_questions();
    half_open_gaps();
    half_open_order();
    half_open_bulk();
    half_open_full();
    half_open_ends();
    half_open_damaged();
    half_open_bytes();
    inclusive_cases();
    inclusive_ends();
    inclusive_questions();
    inclusive_full();
    inclusive_damaged();
    day_reports();
    query_texts();
    query_ranges();
    query_instants();
    query_refusals();
    query_longest();
    half_open_set_edits();
    half_open_set_questions();
    half_open_set_full();
    half_open_set_operations();
    half_open_set_long_union();
    half_open_set_damaged();
    inclusive_set_cases();
    inclusive_set_ends();
    inclusive_set_operations();
    inclusive_set_damaged();
    if (failures > 0) {
        printf("%d of %d checks failed\n", failures, checks);
        return 1;
    }
    printf("ok, %d checks\n", checks);
    return 0;
}
