/* The proved uplink power reference, for C: link target/native/libexports.a.
   A job, rows and answers are each a pointer and a length. Every function
   answers the number of a refusal, 0 where there is none, and leaves its place,
   0 where there is none, in *place. Nothing is asked of a caller but memory
   that is there; what is lent to be written, answers, state, sets, file, bytes,
   size and place, may not overlap anything else that is lent. */
#ifndef UPLINK_H
#define UPLINK_H

#include <stddef.h>
#include <stdint.h>

/* Whether a job is taken: 1 to 7. */
uint8_t uplink_refusal(const uint8_t *job, size_t job_len, size_t *place);

#define UPLINK_NUMBERS_A_ROW 8

/* Every row of a job, eight numbers each into answers: state, command, the
   powers of DPCCH, DPDCH and both, held, and the sets of ids that put the slot
   into a gap of the uplink and of the downlink. A set is the sum of 2^(id-1)
   over its ids, 0 where there is none. After 8 or 9 the answers of the rows
   before *place stand; after any other refusal none is touched. */
uint8_t uplink_run(const uint8_t *job, size_t job_len, int32_t *answers,
                   size_t answers_len, size_t *place);

/* The same for rows of the caller's own, two bytes each, from the start of a
   job, whose settings and gaps hold. */
uint8_t uplink_rows(const uint8_t *job, size_t job_len, const uint8_t *rows,
                    size_t rows_len, int32_t *answers, size_t answers_len,
                    size_t *place);

/* The state of a job between two rows, field by field as docs/STATE.md has it;
   truths are 0 and 1. Its version is that of this form: a state of another
   version, or of another size, is refused with 11 and never misread. */
#define UPLINK_STATE_VERSION 1
#define UPLINK_STATE_NUMBERS 17

typedef struct uplink_state {
    int64_t version;
    int64_t row, sent, power, held, pilots, limited;
    int64_t run_length, run_left;
    int64_t opening_seen, opening_command;
    int64_t set_a, set_b, set_c, set_d, set_spoilt;
    int64_t filter_count;
    double filter_level;
} uplink_state;

/* The numbers lie one after the other, and the level after them. */
_Static_assert(offsetof(uplink_state, filter_level) ==
                   sizeof(int64_t) * UPLINK_STATE_NUMBERS,
               "the numbers of a state");
_Static_assert(sizeof(uplink_state) ==
                   sizeof(int64_t) * UPLINK_STATE_NUMBERS + sizeof(double),
               "a state");

/* The state before row 0 of a job, in so many numbers and a level beside them.
   A refused job leaves them as they were; another count of numbers is refused
   with 11. */
uint8_t uplink_start(const uint8_t *job, size_t job_len, int64_t *numbers,
                     size_t numbers_len, double *level, size_t *place);

/* Rows of the caller's own, one or many, after a state, which the next one
   replaces. The answers begin at answers[0]. Numbers that are no state are
   refused with 7, 10 or 11, in this order; a refusal of all rows leaves state
   and answers as they were. */
uint8_t uplink_next(const uint8_t *job, size_t job_len, int64_t *numbers,
                    size_t numbers_len, double *level, const uint8_t *rows,
                    size_t rows_len, int32_t *answers, size_t answers_len,
                    size_t *place);

/* The same two with a state of this form. */
static inline uint8_t uplink_begin(const uint8_t *job, size_t job_len,
                                   uplink_state *state, size_t *place) {
    return uplink_start(job, job_len, (int64_t *)state, UPLINK_STATE_NUMBERS,
                        &state->filter_level, place);
}

static inline uint8_t uplink_go_on(const uint8_t *job, size_t job_len,
                                   uplink_state *state, const uint8_t *rows,
                                   size_t rows_len, int32_t *answers,
                                   size_t answers_len, size_t *place) {
    return uplink_next(job, job_len, (int64_t *)state, UPLINK_STATE_NUMBERS,
                       &state->filter_level, rows, rows_len, answers,
                       answers_len, place);
}

/* Which ids put a slot into a gap, in each direction: a set as in an answer. A
   slot is a gap slot of a direction exactly if its set there is not 0. A
   refused job leaves 0 and 0. */
uint8_t uplink_slot(const uint8_t *job, size_t job_len, uint32_t slot,
                    uint8_t *uplink, uint8_t *downlink, size_t *place);

/* Writes the job file that settings, gap records and rows make, each as bytes
   of any length. The kind is its byte 0: 1 for a job as uplink_refusal takes
   it. What that would refuse is refused with the same number and place, 1 to 7;
   then comes 12 if fewer bytes are lent than the file has, at that many. *size
   is the bytes written, 0 on a refusal. A refusal leaves the lent bytes as they
   were; bytes after the file stay. Rows are not judged: what a run refuses with
   8 or 9 is written. */
uint8_t uplink_write(uint8_t kind, const uint8_t *settings, size_t settings_len,
                     const uint8_t *records, size_t records_len,
                     const uint8_t *rows, size_t rows_len, uint8_t *file,
                     size_t file_len, size_t *size, size_t *place);

#define UPLINK_SETTINGS_BYTES 12
#define UPLINK_RECORD_BYTES 12

/* The twelve bytes of a job's settings from their numbers; bytes after them
   stay. Fewer bytes are left as they were, and refused with 12 at 12. No number
   is judged: uplink_write and uplink_refusal refuse the file. A start power
   that two bytes do not hold becomes the nearest that they hold, -32768 or
   32767, which is outside its range as well: 3 at 10. */
uint8_t uplink_settings_bytes(uint8_t pca, uint8_t step, uint8_t itp,
                              uint8_t rpp, uint8_t links, uint8_t betac,
                              uint8_t betad, uint8_t channels, int8_t maximum,
                              int32_t start, uint8_t *bytes, size_t bytes_len,
                              size_t *place);

/* The twelve bytes of a gap record from its numbers, start being its start
   frame; all else as for settings. */
uint8_t uplink_record_bytes(uint8_t id, uint8_t direction, uint8_t tgsn,
                            uint8_t tgl1, uint8_t tgl2, uint8_t tgpl,
                            uint16_t tgprc, uint16_t tgd, uint16_t start,
                            uint8_t *bytes, size_t bytes_len, size_t *place);

#endif
