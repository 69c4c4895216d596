/*
 * Runs log_day beside other sources: document 01's cases, the C library for which dates there are, and the list of the tz database's days
 * that is given as the one argument. The status is 1 if something differs.
 */
#define _GNU_SOURCE
#include "hourledger.h"

#include <stdio.h>
#include <time.h>

enum { ZONES = 7, DAY = 86400 };

static long failures;

static void wrong(const char *what, int zone, int year, int month, int day, LogDay d) {
    if (failures++ < 20) {
        printf("WRONG %s: zone %d, %04d-%02d-%02d: answer %d, %lld to %lld\n", what, zone, year, month, day, d.answer,
               (long long)d.start, (long long)d.end);
    }
}

/* One case of document 01: the answer, and start and end. */
static void is(int zone, int year, int month, int day, int answer, int64_t start, int64_t end) {
    LogDay d = log_day((uint8_t)zone, (uint16_t)year, (uint8_t)month, (uint8_t)day);
    if (d.answer != answer || d.start != start || d.end != end) {
        wrong("case", zone, year, month, day, d);
    }
}

static int64_t length(int zone, int year, int month, int day) {
    LogDay d = log_day((uint8_t)zone, (uint16_t)year, (uint8_t)month, (uint8_t)day);
    return d.answer == 0 ? d.end - d.start : -1;
}

static void has_length(int zone, int year, int month, int day, int64_t expected) {
    if (length(zone, year, month, day) != expected) {
        wrong("length", zone, year, month, day, log_day((uint8_t)zone, (uint16_t)year, (uint8_t)month, (uint8_t)day));
    }
}

static void cases(void) {
    is(0, 2024, 3, 10, 0, 1710046800, 1710129600);
    is(0, 2024, 11, 3, 0, 1730606400, 1730696400);
    has_length(0, 2024, 3, 10, 82800);
    has_length(0, 2024, 11, 3, 90000);
    has_length(0, 2007, 3, 11, 82800);
    has_length(0, 2007, 11, 4, 90000);
    has_length(0, 2025, 3, 9, 82800);
    has_length(0, 2025, 11, 2, 90000);
    is(0, 2023, 2, 29, 8, 0, 0);
    has_length(0, 2024, 2, 29, DAY);
    is(7, 2024, 3, 10, 8, 0, 0);
    printf("document 01's cases\n");
}

/* Whether the C library has such a date: it leaves the fields of one that is there as they are. */
static bool is_date(int year, int month, int day) {
    struct tm t = {.tm_year = year - 1900, .tm_mon = month - 1, .tm_mday = day};
    timegm(&t);
    return t.tm_year == year - 1900 && t.tm_mon == month - 1 && t.tm_mday == day;
}

/* Zones, years, months and days that are there and that are not: accepted exactly where each is. */
static void refusals(void) {
    static const int zones[] = {0, 1, 2, 3, 4, 5, 6, 7, 8, 128, 255};
    static const int days[] = {0, 1, 2, 27, 28, 29, 30, 31, 32, 33, 127, 128, 255};
    long asked = 0, refused = 0;
    for (int year = 0; year < 65536; year += year < 2106 || year >= 65530 ? 1 : 131) {
        for (int month = 0; month < 256; month += month < 14 || month >= 254 ? 1 : 40) {
            for (size_t j = 0; j < sizeof days / sizeof *days; j++) {
                bool there = is_date(year, month, days[j]) && 2007 <= year && year <= 2099;
                for (size_t i = 0; i < sizeof zones / sizeof *zones; i++) {
                    LogDay d = log_day((uint8_t)zones[i], (uint16_t)year, (uint8_t)month, (uint8_t)days[j]);
                    bool good = there && zones[i] < ZONES ? d.answer == 0 && d.start < d.end
                                                          : d.answer == 8 && d.start == 0 && d.end == 0;
                    asked++;
                    refused += d.answer != 0;
                    if (!good) {
                        wrong("refusal", zones[i], year, month, days[j], d);
                    }
                }
            }
        }
    }
    printf("%ld zones and dates, %ld of them refused\n", asked, refused);
}

/* The days of one line of the list, date by date: the C library steps the dates. */
static long run(int zone, const int first[3], const int last[3], int64_t start, int64_t size) {
    struct tm at = {.tm_year = first[0] - 1900, .tm_mon = first[1] - 1, .tm_mday = first[2]};
    struct tm end = {.tm_year = last[0] - 1900, .tm_mon = last[1] - 1, .tm_mday = last[2]};
    time_t now = timegm(&at), stop = timegm(&end);
    long seen = 0;
    for (; now <= stop; now += DAY) {
        gmtime_r(&now, &at);
        LogDay d = log_day((uint8_t)zone, (uint16_t)(at.tm_year + 1900), (uint8_t)(at.tm_mon + 1), (uint8_t)at.tm_mday);
        if (d.answer != 0 || d.start != start || d.end != start + size) {
            wrong("day", zone, at.tm_year + 1900, at.tm_mon + 1, at.tm_mday, d);
        }
        start += size;
        seen++;
    }
    return seen;
}

/* Every day of the list; that it has each date of 93 years in each zone. */
static bool list(const char *path) {
    FILE *in = fopen(path, "r");
    if (!in) {
        perror(path);
        return false;
    }
    long seen[ZONES] = {0}, by_length[3] = {0}, all = 0;
    int zone, first[3], last[3], fields;
    long long start, size;
    while ((fields = fscanf(in, "%d %d-%d-%d %d-%d-%d %lld %lld", &zone, &first[0], &first[1], &first[2], &last[0],
                            &last[1], &last[2], &start, &size)) == 9 && zone >= 0 && zone < ZONES) {
        long n = run(zone, first, last, start, size);
        seen[zone] += n;
        all += n;
        by_length[size == 82800 ? 0 : size == DAY ? 1 : 2] += n;
    }
    fclose(in);
    bool whole = fields == EOF;
    for (int i = 0; i < ZONES; i++) {
        whole = whole && seen[i] == 33968;
    }
    printf("%ld days of the tz database: %ld of 82800 s, %ld of 86400 s, %ld of 90000 s\n", all, by_length[0], by_length[1],
           by_length[2]);
    if (!whole) {
        printf("the list is not whole\n");
    }
    return whole;
}

int main(int count, char **words) {
    if (count != 2) {
        fprintf(stderr, "usage: days LIST\n");
        return 2;
    }
    cases();
    refusals();
    bool whole = list(words[1]);
    printf("%ld differences\n", failures);
    return failures == 0 && whole ? 0 : 1;
}
