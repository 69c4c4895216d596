/*
 * Hourledger for C: relations of ranges, maps of half-open ranges with their byte form, maps of inclusive ranges, sets of both kinds,
 * log days, the day's report and queries. Keys are int64_t, values are uint8_t.
 * ./library makes target/libhourledger.a, with all of it:
 *
 *   cc examples/day.c -Iinclude -Ltarget -lhourledger
 *
 * ANSWERS
 *   0  done
 *   1  range empty or reversed
 *   2  result would need over 512 ranges
 *   3  lent output too short
 *   4  lent map or set not well formed
 *   5  not covered, or no such place: an answer, not a fault
 *   6  bytes not a written map
 *   7  bad query
 *   8  bad zone or date
 *   9  total over 2^64 - 1
 *  10  status outside 1 to 4 in the day
 * Where several apply, the first of 4, 1, 8, 6, 7, 10, 9, 5, 2, 3 is given. The first lent map or set is
 * checked before the second.
 * On any number but 0, every other result field is 0 and all lent memory is unchanged. Bulk insert alone differs: see there.
 *
 * RANGES
 * A half-open range start..end has the keys from start up to end, without end itself, and needs start < end.
 * An inclusive range start..=end has its end too, and needs start <= end. INT64_MIN and INT64_MAX are legal keys.
 *
 * LENT MEMORY
 * A lent list is a pointer and a number of elements. A list of ranges is two lists, or three with values,
 * and is as long as the shortest of them. No pointer may be null. Memory that a function changes must not
 * overlap other memory that is lent to the same call. On success, places of an output list past the stated
 * count are unchanged. Nothing is kept after a call.
 */
#ifndef HOURLEDGER_H
#define HOURLEDGER_H

#include <stdbool.h>
#include <stddef.h>
#include <stdint.h>

#ifdef __cplusplus
extern "C" {
#endif

/* How many places a map or a set has. */
#define HOURLEDGER_PLACES 512

/* The longest byte form: 52 4D 30 31, the count as u32, and 17 bytes for each range. */
#define HOURLEDGER_BYTES (8 + 17 * HOURLEDGER_PLACES)

/* The longest list of gaps: one before each range, and one behind the last. */
#define HOURLEDGER_GAPS (HOURLEDGER_PLACES + 1)

/* The longest union of two sets: every range of both, for no output list is bound to 512. An intersection is shorter. */
#define HOURLEDGER_UNION (2 * HOURLEDGER_PLACES)

/* The longest result of a query: one range before each range of both maps, and one behind the last. */
#define HOURLEDGER_QUERY (2 * HOURLEDGER_PLACES + 1)

/*
 * A map of half-open ranges. Well formed: the count is at most 512, no stored range is empty or reversed,
 * unused places hold start 0, end 0 and value 0, ranges ascend without overlap, and no two that touch have
 * equal values. Two touch when one's end equals the next start. All bytes 0 is the empty map.
 * Read it freely; change it only by these functions. A map that is not well formed is answered with 4.
 */
typedef struct RangeMap {
    size_t count;
    int64_t starts[HOURLEDGER_PLACES];
    int64_t ends[HOURLEDGER_PLACES];
    uint8_t values[HOURLEDGER_PLACES];
} RangeMap;

/*
 * A map of inclusive ranges. Well formed as above; two ranges touch when the next start is the end plus one.
 * The same stored numbers can be well formed as one kind and not as the other.
 */
typedef struct RangeInclusiveMap {
    size_t count;
    int64_t starts[HOURLEDGER_PLACES];
    int64_t ends[HOURLEDGER_PLACES];
    uint8_t values[HOURLEDGER_PLACES];
} RangeInclusiveMap;

/*
 * A set of half-open ranges: a map whose values are all 0. Another value in any place, used or not, is not
 * well formed. Two stored ranges never touch. All bytes 0 is the empty set.
 */
typedef struct RangeSet {
    size_t count;
    int64_t starts[HOURLEDGER_PLACES];
    int64_t ends[HOURLEDGER_PLACES];
    uint8_t values[HOURLEDGER_PLACES];
} RangeSet;

/* A set of inclusive ranges, in the same way. */
typedef struct RangeInclusiveSet {
    size_t count;
    int64_t starts[HOURLEDGER_PLACES];
    int64_t ends[HOURLEDGER_PLACES];
    uint8_t values[HOURLEDGER_PLACES];
} RangeInclusiveSet;

/* Whether two ranges are related, or a range has a key. */
typedef struct LedgerRelated {
    uint8_t answer;
    bool yes;
} LedgerRelated;

/* What two ranges have in common. */
typedef struct LedgerIntersected {
    uint8_t answer;
    int64_t start;
    int64_t end;
} LedgerIntersected;

/* Yes or no, about a map or a set. */
typedef struct LedgerTold {
    uint8_t answer;
    bool yes;
} LedgerTold;

/* How many. */
typedef struct LedgerCount {
    uint8_t answer;
    size_t count;
} LedgerCount;

/* A stored range and its value. The value is 0 in a set. */
typedef struct LedgerRange {
    uint8_t answer;
    int64_t start;
    int64_t end;
    uint8_t value;
} LedgerRange;

/* A consecutive part of the places: the first, and how many. */
typedef struct LedgerStretch {
    uint8_t answer;
    size_t place;
    size_t count;
} LedgerStretch;

/* How two maps or sets compare: -1, 0 or 1. */
typedef struct LedgerOrder {
    uint8_t answer;
    int8_t order;
} LedgerOrder;

/* How a bulk insert went: the first refusal or 0, and how many entries were applied before it. */
typedef struct LedgerApplied {
    uint8_t answer;
    size_t applied;
} LedgerApplied;

/* How many keys a set covers. */
typedef struct LedgerTotal {
    uint8_t answer;
    uint64_t total;
} LedgerTotal;

/* ---- RELATIONS OF HALF-OPEN RANGES ---- */

/* Whether the range has the key. 1 if it is empty or reversed. */
LedgerRelated range_contains(int64_t start, int64_t end, int64_t key);

/* Whether the two have a key in common. 1 if one of them is empty or reversed. */
LedgerRelated range_overlaps(int64_t start, int64_t end, int64_t other_start, int64_t other_end);

/* Whether one ends where the other starts, or they overlap. 1 if one of them is empty or reversed. */
LedgerRelated range_touches(int64_t start, int64_t end, int64_t other_start, int64_t other_end);

/* The greater start and the lesser end, of any pair. 5 if these leave nothing. */
LedgerIntersected range_intersect(int64_t start, int64_t end, int64_t other_start, int64_t other_end);

/* ---- RELATIONS OF INCLUSIVE RANGES ---- */

/* Whether the range has the key. 1 if it is reversed. */
LedgerRelated range_inclusive_contains(int64_t start, int64_t end, int64_t key);

/* Whether the two have a key in common. 1 if one of them is reversed. */
LedgerRelated range_inclusive_overlaps(int64_t start, int64_t end, int64_t other_start, int64_t other_end);

/* Whether one starts right after the other's end, or they overlap. 1 if one of them is reversed. */
LedgerRelated range_inclusive_touches(int64_t start, int64_t end, int64_t other_start, int64_t other_end);

/* The greater start and the lesser end, of any pair. 5 if these leave nothing. */
LedgerIntersected range_inclusive_intersect(int64_t start, int64_t end, int64_t other_start, int64_t other_end);

/* ---- MAPS OF HALF-OPEN RANGES ---- */

/* A new empty map. */
RangeMap range_map_new(void);

/* Empties the map. It overwrites the map, so it does not check it. */
void range_map_clear(RangeMap *m);

/* The check alone: whether the map is well formed. */
bool range_map_well_formed(const RangeMap *m);

/* Whether nothing is held. */
LedgerTold range_map_is_empty(const RangeMap *m);

/* How many ranges are held. */
LedgerCount range_map_len(const RangeMap *m);

/* The first range and its value. 5 if the map is empty. */
LedgerRange range_map_first_range_value(const RangeMap *m);

/* The last range and its value. 5 if the map is empty. */
LedgerRange range_map_last_range_value(const RangeMap *m);

/* The range and the value at a place, counted from 0. 5 if there is no such place. */
LedgerRange range_map_range_at(const RangeMap *m, size_t place);

/* The range that has the key, and its value. 5 if the key is not covered. */
LedgerRange range_map_get_key_value(const RangeMap *m, int64_t key);

/* Whether some range has the key. */
LedgerTold range_map_contains_key(const RangeMap *m, int64_t key);

/*
 * Gives the value to each key of the range and to no other, and leaves the one well-formed map of that.
 * 2 if that map would need over 512 ranges: fullness is judged on the final map.
 */
uint8_t range_map_insert(RangeMap *m, int64_t start, int64_t end, uint8_t value);

/* Uncovers exactly the range. 2 as for insert: a cut inside one range of a full map needs one more. */
uint8_t range_map_remove(RangeMap *m, int64_t start, int64_t end);

/* Which consecutive stored part meets the query. Place 0 and count 0 if none does. */
LedgerStretch range_map_overlapping(const RangeMap *m, int64_t start, int64_t end);

/* Whether some range meets the query. */
LedgerTold range_map_overlaps(const RangeMap *m, int64_t start, int64_t end);

/* Writes the maximal uncovered ranges inside the outer range, ascending. 3 if they do not fit into the lists. */
LedgerCount range_map_gaps(const RangeMap *m, int64_t start, int64_t end,
                           int64_t *out_starts, size_t out_starts_length,
                           int64_t *out_ends, size_t out_ends_length);

/* Whether the two maps hold the same. */
LedgerTold range_map_eq(const RangeMap *m, const RangeMap *other);

/* Compares (start, end, value) place by place, a prefix coming first. */
LedgerOrder range_map_cmp(const RangeMap *m, const RangeMap *other);

/*
 * Bulk insert: works in list order and stops at the first refusal. Earlier entries stay, and the count
 * applied is returned, also with an answer other than 0.
 */
LedgerApplied range_map_extend(RangeMap *m, const int64_t *starts, size_t starts_length,
                               const int64_t *ends, size_t ends_length,
                               const uint8_t *values, size_t values_length);

/*
 * Writes the byte form of the map into the first places of `out`: 52 4D 30 31, the count as u32, then per
 * range start i64, end i64, value u8, all little-endian. The count is the number of bytes.
 */
LedgerCount range_map_write(const RangeMap *m, uint8_t *out, size_t out_length);

/*
 * Reads the map whose byte form the bytes are, and overwrites *m, which may hold anything. Bytes that no
 * well-formed map is written as are answered with 6, and *m is then as it was.
 */
uint8_t range_map_read(RangeMap *m, const uint8_t *bytes, size_t bytes_length);

/*
 * The unchecked doors: the same without the check, for a caller that owns its map and knows that it is well
 * formed, as each of these functions leaves it. A map that is not well formed must not be lent to them.
 */
LedgerRange range_map_get_key_value_unchecked(const RangeMap *m, int64_t key);
uint8_t range_map_insert_unchecked(RangeMap *m, int64_t start, int64_t end, uint8_t value);
uint8_t range_map_remove_unchecked(RangeMap *m, int64_t start, int64_t end);
LedgerCount range_map_gaps_unchecked(const RangeMap *m, int64_t start, int64_t end,
                                     int64_t *out_starts, size_t out_starts_length,
                                     int64_t *out_ends, size_t out_ends_length);

/* ---- MAPS OF INCLUSIVE RANGES ---- */

/* A new empty map. */
RangeInclusiveMap range_inclusive_map_new(void);

/* Empties the map. It overwrites the map, so it does not check it. */
void range_inclusive_map_clear(RangeInclusiveMap *m);

/* The check alone: whether the map is well formed. */
bool range_inclusive_map_well_formed(const RangeInclusiveMap *m);

/* Whether nothing is held. */
LedgerTold range_inclusive_map_is_empty(const RangeInclusiveMap *m);

/* How many ranges are held. */
LedgerCount range_inclusive_map_len(const RangeInclusiveMap *m);

/* The first range and its value. 5 if the map is empty. */
LedgerRange range_inclusive_map_first_range_value(const RangeInclusiveMap *m);

/* The last range and its value. 5 if the map is empty. */
LedgerRange range_inclusive_map_last_range_value(const RangeInclusiveMap *m);

/* The range and the value at a place, counted from 0. 5 if there is no such place. */
LedgerRange range_inclusive_map_range_at(const RangeInclusiveMap *m, size_t place);

/* The range that has the key, and its value. 5 if the key is not covered. */
LedgerRange range_inclusive_map_get_key_value(const RangeInclusiveMap *m, int64_t key);

/* Whether some range has the key. */
LedgerTold range_inclusive_map_contains_key(const RangeInclusiveMap *m, int64_t key);

/*
 * Gives the value to each key of the range and to no other, and leaves the one well-formed map of that.
 * 2 if that map would need over 512 ranges: fullness is judged on the final map.
 */
uint8_t range_inclusive_map_insert(RangeInclusiveMap *m, int64_t start, int64_t end, uint8_t value);

/* Uncovers exactly the range. 2 as for insert: a cut inside one range of a full map needs one more. */
uint8_t range_inclusive_map_remove(RangeInclusiveMap *m, int64_t start, int64_t end);

/* Which consecutive stored part meets the query. Place 0 and count 0 if none does. */
LedgerStretch range_inclusive_map_overlapping(const RangeInclusiveMap *m, int64_t start, int64_t end);

/* Whether some range meets the query. */
LedgerTold range_inclusive_map_overlaps(const RangeInclusiveMap *m, int64_t start, int64_t end);

/* Writes the maximal uncovered ranges inside the outer range, ascending. 3 if they do not fit into the lists. */
LedgerCount range_inclusive_map_gaps(const RangeInclusiveMap *m, int64_t start, int64_t end,
                                     int64_t *out_starts, size_t out_starts_length,
                                     int64_t *out_ends, size_t out_ends_length);

/* Whether the two maps hold the same. */
LedgerTold range_inclusive_map_eq(const RangeInclusiveMap *m, const RangeInclusiveMap *other);

/* Compares (start, end, value) place by place, a prefix coming first. */
LedgerOrder range_inclusive_map_cmp(const RangeInclusiveMap *m, const RangeInclusiveMap *other);

/*
 * Bulk insert: works in list order and stops at the first refusal. Earlier entries stay, and the count
 * applied is returned, also with an answer other than 0.
 */
LedgerApplied range_inclusive_map_extend(RangeInclusiveMap *m, const int64_t *starts, size_t starts_length,
                                         const int64_t *ends, size_t ends_length,
                                         const uint8_t *values, size_t values_length);

/*
 * The unchecked doors: the same without the check, for a caller that owns its map and knows that it is well
 * formed, as each of these functions leaves it. A map that is not well formed must not be lent to them.
 */
LedgerRange range_inclusive_map_get_key_value_unchecked(const RangeInclusiveMap *m, int64_t key);
uint8_t range_inclusive_map_insert_unchecked(RangeInclusiveMap *m, int64_t start, int64_t end, uint8_t value);
uint8_t range_inclusive_map_remove_unchecked(RangeInclusiveMap *m, int64_t start, int64_t end);
LedgerCount range_inclusive_map_gaps_unchecked(const RangeInclusiveMap *m, int64_t start, int64_t end,
                                               int64_t *out_starts, size_t out_starts_length,
                                               int64_t *out_ends, size_t out_ends_length);

/* ---- SETS OF HALF-OPEN RANGES ---- */

/* A new empty set. */
RangeSet range_set_new(void);

/* Empties the set. It overwrites the set, so it does not check it. */
void range_set_clear(RangeSet *m);

/* The check alone: whether the set is well formed. */
bool range_set_well_formed(const RangeSet *m);

/* Whether nothing is held. */
LedgerTold range_set_is_empty(const RangeSet *m);

/* How many ranges are held. */
LedgerCount range_set_len(const RangeSet *m);

/* The first range. 5 if the set is empty. */
LedgerRange range_set_first(const RangeSet *m);

/* The last range. 5 if the set is empty. */
LedgerRange range_set_last(const RangeSet *m);

/* The range at a place, counted from 0. 5 if there is no such place. */
LedgerRange range_set_range_at(const RangeSet *m, size_t place);

/* The range that has the key. 5 if the key is not covered. */
LedgerRange range_set_get(const RangeSet *m, int64_t key);

/* Whether some range has the key. */
LedgerTold range_set_contains(const RangeSet *m, int64_t key);

/*
 * Covers each key of the range and no other, and leaves the one well-formed set of that.
 * 2 if that set would need over 512 ranges: fullness is judged on the final set.
 */
uint8_t range_set_insert(RangeSet *m, int64_t start, int64_t end);

/* Uncovers exactly the range. 2 as for insert: a cut inside one range of a full set needs one more. */
uint8_t range_set_remove(RangeSet *m, int64_t start, int64_t end);

/* Which consecutive stored part meets the query. Place 0 and count 0 if none does. */
LedgerStretch range_set_overlapping(const RangeSet *m, int64_t start, int64_t end);

/* Whether some range meets the query. */
LedgerTold range_set_overlaps(const RangeSet *m, int64_t start, int64_t end);

/* Writes the maximal uncovered ranges inside the outer range, ascending. 3 if they do not fit into the lists. */
LedgerCount range_set_gaps(const RangeSet *m, int64_t start, int64_t end,
                           int64_t *out_starts, size_t out_starts_length,
                           int64_t *out_ends, size_t out_ends_length);

/* Whether the two sets hold the same. */
LedgerTold range_set_eq(const RangeSet *m, const RangeSet *other);

/* Compares (start, end) place by place, a prefix coming first. */
LedgerOrder range_set_cmp(const RangeSet *m, const RangeSet *other);

/*
 * Bulk insert: works in list order and stops at the first refusal. Earlier ranges stay, and the count
 * applied is returned, also with an answer other than 0.
 */
LedgerApplied range_set_extend(RangeSet *m, const int64_t *starts, size_t starts_length,
                               const int64_t *ends, size_t ends_length);

/*
 * Writes the points that both sets cover, as maximal ranges, ascending. 3 if they do not fit into the lists.
 * The two may be the same set.
 */
LedgerCount range_set_intersection(const RangeSet *m, const RangeSet *other,
                                   int64_t *out_starts, size_t out_starts_length,
                                   int64_t *out_ends, size_t out_ends_length);

/*
 * Writes the points that one of the sets covers, or both, as ranges that ascend without overlap. Two neighbouring
 * points lie in one of them exactly when one stored range holds both: {0..3} and {3..5} make two ranges.
 * 3 if they do not fit into the lists. The two may be the same set.
 */
LedgerCount range_set_union(const RangeSet *m, const RangeSet *other,
                            int64_t *out_starts, size_t out_starts_length,
                            int64_t *out_ends, size_t out_ends_length);

/* How many keys are covered. 9 if they are over 2^64 - 1, which no half-open set reaches. */
LedgerTotal range_set_total(const RangeSet *m);

/* ---- SETS OF INCLUSIVE RANGES ---- */

/* A new empty set. */
RangeInclusiveSet range_inclusive_set_new(void);

/* Empties the set. It overwrites the set, so it does not check it. */
void range_inclusive_set_clear(RangeInclusiveSet *m);

/* The check alone: whether the set is well formed. */
bool range_inclusive_set_well_formed(const RangeInclusiveSet *m);

/* Whether nothing is held. */
LedgerTold range_inclusive_set_is_empty(const RangeInclusiveSet *m);

/* How many ranges are held. */
LedgerCount range_inclusive_set_len(const RangeInclusiveSet *m);

/* The first range. 5 if the set is empty. */
LedgerRange range_inclusive_set_first(const RangeInclusiveSet *m);

/* The last range. 5 if the set is empty. */
LedgerRange range_inclusive_set_last(const RangeInclusiveSet *m);

/* The range at a place, counted from 0. 5 if there is no such place. */
LedgerRange range_inclusive_set_range_at(const RangeInclusiveSet *m, size_t place);

/* The range that has the key. 5 if the key is not covered. */
LedgerRange range_inclusive_set_get(const RangeInclusiveSet *m, int64_t key);

/* Whether some range has the key. */
LedgerTold range_inclusive_set_contains(const RangeInclusiveSet *m, int64_t key);

/*
 * Covers each key of the range and no other, and leaves the one well-formed set of that.
 * 2 if that set would need over 512 ranges: fullness is judged on the final set.
 */
uint8_t range_inclusive_set_insert(RangeInclusiveSet *m, int64_t start, int64_t end);

/* Uncovers exactly the range. 2 as for insert: a cut inside one range of a full set needs one more. */
uint8_t range_inclusive_set_remove(RangeInclusiveSet *m, int64_t start, int64_t end);

/* Which consecutive stored part meets the query. Place 0 and count 0 if none does. */
LedgerStretch range_inclusive_set_overlapping(const RangeInclusiveSet *m, int64_t start, int64_t end);

/* Whether some range meets the query. */
LedgerTold range_inclusive_set_overlaps(const RangeInclusiveSet *m, int64_t start, int64_t end);

/* Writes the maximal uncovered ranges inside the outer range, ascending. 3 if they do not fit into the lists. */
LedgerCount range_inclusive_set_gaps(const RangeInclusiveSet *m, int64_t start, int64_t end,
                                     int64_t *out_starts, size_t out_starts_length,
                                     int64_t *out_ends, size_t out_ends_length);

/* Whether the two sets hold the same. */
LedgerTold range_inclusive_set_eq(const RangeInclusiveSet *m, const RangeInclusiveSet *other);

/* Compares (start, end) place by place, a prefix coming first. */
LedgerOrder range_inclusive_set_cmp(const RangeInclusiveSet *m, const RangeInclusiveSet *other);

/*
 * Bulk insert: works in list order and stops at the first refusal. Earlier ranges stay, and the count
 * applied is returned, also with an answer other than 0.
 */
LedgerApplied range_inclusive_set_extend(RangeInclusiveSet *m, const int64_t *starts, size_t starts_length,
                                         const int64_t *ends, size_t ends_length);

/*
 * Writes the points that both sets cover, as maximal ranges, ascending. 3 if they do not fit into the lists.
 * The two may be the same set.
 */
LedgerCount range_inclusive_set_intersection(const RangeInclusiveSet *m, const RangeInclusiveSet *other,
                                             int64_t *out_starts, size_t out_starts_length,
                                             int64_t *out_ends, size_t out_ends_length);

/*
 * Writes the points that one of the sets covers, or both, as ranges that ascend without overlap. Two neighbouring
 * points lie in one of them exactly when one stored range holds both: {0..=2} and {3..=5} make two ranges.
 * 3 if they do not fit into the lists. The two may be the same set.
 */
LedgerCount range_inclusive_set_union(const RangeInclusiveSet *m, const RangeInclusiveSet *other,
                                      int64_t *out_starts, size_t out_starts_length,
                                      int64_t *out_ends, size_t out_ends_length);

/* How many keys are covered. 9 if they are over 2^64 - 1, as the full range is. */
LedgerTotal range_inclusive_set_total(const RangeInclusiveSet *m);

/* ---- LOG DAYS ---- */

/*
 * A day of the log, from its local midnight to the next date's, as keys: UTC seconds since 1970-01-01,
 * without leap seconds. Start and end are 0 unless the answer is 0.
 */
typedef struct LogDay {
    uint8_t answer;
    int64_t start;
    int64_t end;
} LogDay;

/*
 * The day of a date in a zone: 0 Eastern, 1 Central, 2 Mountain, 3 Pacific, 4 Alaska, 5 Hawaii,
 * 6 Mountain without clock changes. 8 if there is no such zone, or no such date in the years 2007 to 2099.
 */
LogDay log_day(uint8_t zone, uint16_t year, uint8_t month, uint8_t day);
/* ---- A DAY'S REPORT ---- */

/*
 * The report of a day of the log: its start and end as keys, the seconds of each duty in it and those that are
 * unrecorded, and the same five as hours. Each hour is the double nearest seconds / 3600, exact where 225 divides
 * the seconds, in the default rounding mode; in another one of the caller's the division follows that. The four duties and the unrecorded seconds sum to end - start.
 *   4  lent map not well formed    8  bad zone or date    10  status outside 1 to 4 in the day
 * Where several apply, the first of 4, 8, 10 is given. Unless the answer is 0, all else is 0 and the hours are +0.0.
 */
typedef struct DayReport {
    uint8_t answer;
    int64_t start;
    int64_t end;
    uint32_t off_duty;
    uint32_t sleeper_berth;
    uint32_t driving;
    uint32_t on_duty;
    uint32_t unrecorded;
    double off_duty_hours;
    double sleeper_berth_hours;
    double driving_hours;
    double on_duty_hours;
    double unrecorded_hours;
} DayReport;

/*
 * The report of a date in a zone. The map's values are statuses: 1 off duty, 2 sleeper berth, 3 driving,
 * 4 on duty not driving. Only ranges that meet the day are looked at.
 */
DayReport range_map_day_report(const RangeMap *m, uint8_t zone, uint16_t year, uint8_t month, uint8_t day);

/* The unchecked door: a map that is not well formed must not be lent to it. */
DayReport range_map_day_report_unchecked(const RangeMap *m, uint8_t zone, uint16_t year, uint8_t month, uint8_t day);

/* ---- QUERIES OF TWO MAPS ---- */

/*
 * A query is 1 to 64 bytes of text, with no end mark. Its atoms are A or B and a digit, as in A3: the instants where that map
 * holds that value. ! binds tightest, then &, then |; parentheses group; there are no spaces. At most 16 of ! and ( are open at
 * once; a ! is open until its operand ends. All is relative to the window start..end: !A3 is true in the window wherever A does
 * not hold 3.
 *   4  A, or else B, not well formed    1  window empty or reversed    7  bytes not a query    3  lists too short
 * Where several apply, the first of 4, 1, 7, 3 is given. The two may be the same map.
 */

/* Writes the true instants of the window as maximal ranges, ascending. 3 if they do not fit into the lists. */
LedgerCount range_map_query(const RangeMap *a, const RangeMap *b, int64_t start, int64_t end,
                            const uint8_t *bytes, size_t bytes_length,
                            int64_t *out_starts, size_t out_starts_length,
                            int64_t *out_ends, size_t out_ends_length);

/* Whether one instant is in that result. Outside the window it is not. */
LedgerTold range_map_query_at(const RangeMap *a, const RangeMap *b, int64_t start, int64_t end,
                              const uint8_t *bytes, size_t bytes_length, int64_t key);

/* The unchecked doors: a map that is not well formed must not be lent to them. */
LedgerCount range_map_query_unchecked(const RangeMap *a, const RangeMap *b, int64_t start, int64_t end,
                                      const uint8_t *bytes, size_t bytes_length,
                                      int64_t *out_starts, size_t out_starts_length,
                                      int64_t *out_ends, size_t out_ends_length);
LedgerTold range_map_query_at_unchecked(const RangeMap *a, const RangeMap *b, int64_t start, int64_t end,
                                        const uint8_t *bytes, size_t bytes_length, int64_t key);

#ifdef __cplusplus
}
#endif

#endif
