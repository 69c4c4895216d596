/*
 * One input of the fuzzer. The bytes are read over a map that holds anything, by ours and by the reader in Rust:
 * the answers and all bytes of the two maps have to be the same. What was read is written again, and has to be the input.
 */
#include "hourledger.h"

#include <stdlib.h>
#include <string.h>

uint8_t model_read(RangeMap *m, const uint8_t *bytes, size_t bytes_length);

static void require(bool good) {
    if (!good) {
        abort();
    }
}

int LLVMFuzzerTestOneInput(const uint8_t *data, size_t length) {
    static RangeMap ours, expected;
    static uint8_t out[HOURLEDGER_BYTES];
    static const uint8_t nothing[1];
    const uint8_t *bytes = length == 0 ? nothing : data;

    memset(&ours, 0x55, sizeof ours);
    memset(&expected, 0x55, sizeof expected);
    uint8_t answer = range_map_read(&ours, bytes, length);
    require(answer == model_read(&expected, bytes, length));
    require(memcmp(&ours, &expected, sizeof ours) == 0);
    if (answer == 0) {
        LedgerCount written = range_map_write(&ours, out, sizeof out);
        require(written.answer == 0 && written.count == length);
        require(memcmp(out, bytes, length) == 0);
    } else {
        require(answer == 6);
    }
    return 0;
}
