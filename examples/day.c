#include <stdio.h>
#include "hourledger.h"

int main(void)
{
    LogDay day = log_day(0, 2024, 11, 3);
    printf("%d: the day has %lld seconds\n", day.answer, (long long)(day.end - day.start));

    RangeMap m = range_map_new();
    range_map_insert(&m, day.start, day.end, 1);
    range_map_insert(&m, 1730628000, 1730653200, 3);
    printf("%d: an empty range is refused\n", range_map_insert(&m, 4, 4, 1));

    DayReport r = range_map_day_report(&m, 0, 2024, 11, 3);
    printf("%d: off duty %u s, driving %u s, %.4f hours\n", r.answer, r.off_duty, r.driving, r.driving_hours);

    uint8_t form[HOURLEDGER_BYTES];
    LedgerCount written = range_map_write(&m, form, sizeof form);
    printf("%d: %zu bytes\n", written.answer, written.count);

    int64_t starts[4], ends[4];
    LedgerCount found = range_map_query(&m, &m, day.start, day.end, (const uint8_t *)"A1&!B3", 6, starts, 4, ends, 4);
    printf("%d: off duty in %zu ranges, the first from %lld to %lld\n", found.answer, found.count, (long long)starts[0], (long long)ends[0]);
    return 0;
}
