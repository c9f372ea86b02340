/* A live test in C: the state before row 0, a row after it, and a state of another version; then slots of the job, and
   one of a job that is refused; then the job written again from its numbers and rows. Prints what it saw. */
#include "../uplink.h"

#include <inttypes.h>
#include <stdio.h>
#include <string.h>

static void tell_slot(const uint8_t *job, size_t length, uint32_t slot) {
    uint8_t uplink = 99, downlink = 99;
    size_t place = 99;
    uint8_t number = uplink_slot(job, length, slot, &uplink, &downlink, &place);
    printf("%u %zu slot %" PRIu32 " uplink %u downlink %u\n", (unsigned)number, place, slot, (unsigned)uplink,
           (unsigned)downlink);
}

/* The lift, written into so many bytes: its numbers and its rows, which begin at byte 65. */
static void tell_written(const uint8_t *job, size_t length, size_t lent) {
    uint8_t settings[UPLINK_SETTINGS_BYTES], records[2 * UPLINK_RECORD_BYTES], file[256] = {0};
    uint8_t *second = records + UPLINK_RECORD_BYTES;
    size_t size = 99, place = 99;
    uint8_t number = uplink_settings_bytes(1, 1, 1, 1, 2, 8, 15, 1, 21, 640, settings, sizeof settings, &place);
    number |= uplink_record_bytes(1, 3, 12, 7, 0, 4, 1, 0, 0, records, UPLINK_RECORD_BYTES, &place);
    number |= uplink_record_bytes(2, 2, 5, 3, 0, 4, 1, 0, 2, second, UPLINK_RECORD_BYTES, &place);
    printf("%u %zu numbers\n", (unsigned)number, place);
    number = uplink_write(1, settings, sizeof settings, records, sizeof records, job + 65, length - 65, file, lent,
                          &size, &place);
    printf("%u %zu size %zu same %d\n", (unsigned)number, place, size, memcmp(file, job, length) == 0);
}

int main(void) {
    uint8_t job[256];
    size_t place = 0, length = fread(job, 1, sizeof job, stdin);
    uplink_state state;
    const uint8_t row[2] = {1, 6};
    int32_t answer[UPLINK_NUMBERS_A_ROW] = {0};
    uint8_t number = uplink_begin(job, length, &state, &place);
    printf("%u %zu version %" PRId64 " power %" PRId64 "\n", (unsigned)number, place, state.version, state.power);
    number = uplink_go_on(job, length, &state, row, 2, answer, UPLINK_NUMBERS_A_ROW, &place);
    printf("%u %zu row %" PRId64 " dpcch %" PRId32 "\n", (unsigned)number, place, state.row, answer[2]);
    state.version = UPLINK_STATE_VERSION + 1;
    number = uplink_go_on(job, length, &state, row, 2, answer, UPLINK_NUMBERS_A_ROW, &place);
    printf("%u %zu row %" PRId64 "\n", (unsigned)number, place, state.row);
    tell_slot(job, length, 12);
    tell_slot(job, length, 35);
    tell_slot(job, length - 1, 12);
    tell_written(job, length, length);
    tell_written(job, length, length - 1);
    return 0;
}
