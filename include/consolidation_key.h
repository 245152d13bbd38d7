/* The consolidation key: large strain consolidation of one soil layer, worked in whole numbers.
 *
 * A job describes a layer, its loading, an end time and a budget of steps. `consolidation_key` opens the layer, runs
 * it to the end or until the budget is used, and writes the key: what the layer is then. `consolidation_job` writes a
 * job from the numbers of a description. `consolidation_readings` compares piezometer readings with the pore pressures
 * of the layer that a job's run leaves. `consolidation_flows` gives what a step would let flow through the faces of
 * that layer, with what each division left; it is in a library of its own, libdivision.a, the others in libkey.a.
 *
 * Bytes
 *
 * Numbers are little-endian, the least byte first, on every machine; they need no alignment. Fields of 8 bytes are
 * unsigned unless marked signed, which is two's complement. Lengths and volumes per unit area are in nanometres
 * (nm), stresses and pressures in millipascals (mPa), times in seconds (s), conductivities in femtometres per
 * second (fm/s), void ratios in hundred-millionths (100,000,000 is a void ratio of 1), specific gravity in
 * thousandths.
 *
 * Job
 *
 *   at  bytes
 *    0    3   the letters LSC
 *    3    2   version, 1
 *    5    1   top face: 0 closed, 1 drained
 *    6    1   bottom face: 0 closed, 1 drained
 *    7    1   N, the number of elements, 1 to 128
 *    8    1   C1, points of the compressibility curve, 2 to 64
 *    9    1   C2, points of the conductivity curve, 2 to 64
 *   10    1   T, points of the load table, 1 to 64
 *   11    1   start: 0 with the water given; 1 at rest under the first load of the table, for a closed bottom or one
 *             whose level is the top's; 2 with the water given, and steady under the first load of the table
 *   12    2   specific gravity of the solids, 1,000 to 5,000
 *   14    2   0
 *   16    8   top level: how high the water over the layer stands above the layer's base, 0 to 200,000,000,000 nm
 *   24    8   bottom level: the same of the water that a drained bottom meets; 0 if the bottom is closed
 *   32    8   end, 0 to 3,000,000,000 s
 *   40    8   budget, 0 to 1,000,000 steps
 *   48        N pairs, lowest element first: solids, 100,000 to 100,000,000 nm; water, 0 to 1,000,000,000 nm,
 *             and 0 in start 1
 *             C1 pairs: effective stress, 0 to 2,000,000,000 mPa, rising from point to point; void ratio, 1 to
 *             1,000,000,000, falling
 *             C2 pairs: void ratio, in the same limits, rising; conductivity, 1 to 1,000,000,000 fm/s, never
 *             falling. The void ratios of the first curve lie within those of the second.
 *             T pairs: time, 0 for the first and rising, at most 3,000,000,000 s; load, 0 to 2,000,000,000 mPa
 *
 * A layer is steady when the water that passes upward through all N + 1 faces in 1,000 s differs by at most 1 nm
 * between any two of them. Nothing passes through a closed face; upward through the bottom passes what enters there.
 *
 * Each number of a pair has 8 bytes. A job has 48 + 16 x (N + C1 + C2 + T) bytes. The load between two points of
 * the table goes straight from one to the other; after the last point it stays.
 *
 * Result
 *
 *   at  bytes
 *    0    3   the letters LSR
 *    3    2   version, 1
 *    5    1   stop: why the run ended, see below
 *    6    1   N
 *    7    1   0
 *    8    8   clock, s
 *   16    8   number of steps taken
 *   24    8   load, mPa
 *   32    8   water that left through the top, nm, signed: negative if it came in
 *   40    8   water that left through the bottom, nm, signed
 *   48    8   settlement, nm, signed: negative if the layer rose
 *   56        for each element, lowest first, 40 bytes:
 *               0    8   water, nm
 *               8    8   void ratio, hundred-millionths
 *              16    8   effective stress, mPa
 *              24    8   total stress, mPa, signed
 *              32    8   pore pressure, mPa, signed
 *
 * A result has 56 + 40 x N bytes. Stresses and pressures are those at half the element's height.
 *
 * Description
 *
 * What a job says, as 652 numbers of 64 bits, each array at a fixed place whatever the counts. Units and limits are
 * those of the job; the numbers are the machine's own, as an array of uint64_t holds them, and each is judged whole.
 *
 *   at  words
 *    0    1   top face: 0 closed, 1 drained
 *    1    1   bottom face: 0 closed, 1 drained
 *    2    1   N, the number of elements
 *    3    1   C1, points of the compressibility curve
 *    4    1   C2, points of the conductivity curve
 *    5    1   T, points of the load table
 *    6    1   start: 0 with the water given, 1 at rest and 2 steady under the first load of the table
 *    7    1   specific gravity of the solids
 *    8    1   top level
 *    9    1   bottom level; 0 if the bottom is closed
 *   10    1   end
 *   11    1   budget
 *   12  128   solids of the elements, lowest first
 *  140  128   water of the elements; 0 in start 1
 *  268   64   compressibility curve: effective stresses
 *  332   64   compressibility curve: void ratios
 *  396   64   conductivity curve: void ratios
 *  460   64   conductivity curve: conductivities
 *  524   64   load table: times
 *  588   64   load table: loads
 *
 * Places of an array past its count are not looked at.
 *
 * Reading
 *
 * A piezometer reading is three numbers of 64 bits, each the machine's own:
 *
 *   at  words
 *    0    1   element, 1 for the lowest to N
 *    1    1   kind: 1 a pressure in kPa, 2 a water column in m, any other number a missing reading
 *    2    1   the 32 bits of the reading, an IEEE 754 binary32, in the lower half; the upper half is not looked at,
 *             and nothing of it where the reading is missing
 *
 * The reading's exact value, a whole number times a power of two, becomes mPa or nm and is cut toward zero; nm become
 * mPa as every head of water does, head x 981 / 100,000, cut again. Minus zero is 0.
 *
 * Its answer is five numbers:
 *
 *   at  words
 *    0    1   0, or why the reading is refused: 19 or 18, tested in this order
 *    1    1   1 if the reading is missing, otherwise 0
 *    2    1   the exact value, mPa of a pressure, nm of a column, signed
 *    3    1   pore pressure of the element, mPa, signed
 *    4    1   the reading minus the pore pressure, mPa, signed
 *
 * Signed numbers are in two's complement: `(int64_t)answers[4]`. Of a refused reading all but the first are 0, of a
 * missing one all but the second and the pore pressure.
 *
 * Flow
 *
 * Water flows through the faces between elements and through the drained ones of the top and the bottom. In a step of
 * t seconds
 *
 *   difference x t = flow x R + remainder
 *
 * where the flow, nm, is the quotient cut toward zero. So the remainder, mPa s, is smaller than R in size, and 0 or of
 * the difference's sign. The difference, mPa, is that of the excess pressures: at a face between two elements the lower
 * one's minus the upper one's, so that a flow goes up; at the top and the bottom the element's minus what the face
 * holds, so that a flow goes out. A flow below 0 goes the other way. R, mPa s/nm, is the face's resistance.
 *
 * The entries go from the bottom up: the bottom if it is drained, the N - 1 faces between elements, the top if it is
 * drained. A closed face has none, so there are N - 1 to N + 1 of them.
 */
#ifndef CONSOLIDATION_KEY_H
#define CONSOLIDATION_KEY_H

#include <stddef.h>
#include <stdint.h>

#ifdef __cplusplus
extern "C" {
#endif

/* Sizes, in bytes but for the most elements, points and flows. */
enum {
    CONSOLIDATION_JOB_HEAD = 48,
    CONSOLIDATION_JOB_PAIR = 16,
    CONSOLIDATION_RESULT_HEAD = 56,
    CONSOLIDATION_RESULT_ELEMENT = 40,
    CONSOLIDATION_MOST_ELEMENTS = 128,
    CONSOLIDATION_MOST_POINTS = 64,
    CONSOLIDATION_MOST_JOB_BYTES = 5168,
    CONSOLIDATION_MOST_RESULT_BYTES = 5176,
    CONSOLIDATION_MOST_FLOWS = 129
};

/* Where the numbers of a description stand, and how many there are. */
enum {
    CONSOLIDATION_TOP_AT = 0,
    CONSOLIDATION_BOTTOM_AT = 1,
    CONSOLIDATION_ELEMENTS_AT = 2,
    CONSOLIDATION_COMPRESSIBILITY_POINTS_AT = 3,
    CONSOLIDATION_CONDUCTIVITY_POINTS_AT = 4,
    CONSOLIDATION_TABLE_POINTS_AT = 5,
    CONSOLIDATION_START_AT = 6,
    CONSOLIDATION_GRAVITY_AT = 7,
    CONSOLIDATION_TOP_LEVEL_AT = 8,
    CONSOLIDATION_BOTTOM_LEVEL_AT = 9,
    CONSOLIDATION_END_AT = 10,
    CONSOLIDATION_BUDGET_AT = 11,
    CONSOLIDATION_SOLIDS_AT = 12,
    CONSOLIDATION_WATER_AT = 140,
    CONSOLIDATION_STRESS_AT = 268,
    CONSOLIDATION_VOID_AT = 332,
    CONSOLIDATION_CONDUCTIVITY_VOID_AT = 396,
    CONSOLIDATION_CONDUCTIVITY_AT = 460,
    CONSOLIDATION_TABLE_TIME_AT = 524,
    CONSOLIDATION_TABLE_LOAD_AT = 588,
    CONSOLIDATION_DESCRIPTION_WORDS = 652
};

/* Words of a reading and of its answer, and the kinds of readings. */
enum {
    CONSOLIDATION_READING_WORDS = 3,
    CONSOLIDATION_ANSWER_WORDS = 5,
    CONSOLIDATION_MISSING = 0,
    CONSOLIDATION_PRESSURE = 1,
    CONSOLIDATION_COLUMN = 2
};

/* Bytes of a job with so many elements and points, and of the result of a job with so many elements. */
#define CONSOLIDATION_JOB_BYTES(elements, curve1, curve2, table) \
    ((size_t)48 + (size_t)16 * ((size_t)(elements) + (size_t)(curve1) + (size_t)(curve2) + (size_t)(table)))
#define CONSOLIDATION_RESULT_BYTES(elements) ((size_t)56 + (size_t)40 * (size_t)(elements))

/* Flows of a job, from the bytes of one that is accepted. */
#define CONSOLIDATION_FLOWS(job) ((size_t)(job)[7] - 1 + (size_t)(job)[5] + (size_t)(job)[6])

/* Why a key, a job, an answer or a flow is withheld. Causes are tested in the order of their numbers, but 20 straight
 * after 9 and 19 before 18, and the first that holds is the answer. */
enum {
    CONSOLIDATION_DONE = 0,               /* no cause: the result is written */
    CONSOLIDATION_NO_JOB = 1,             /* fewer than 48 bytes, or they do not begin with LSC */
    CONSOLIDATION_BAD_VERSION = 2,        /* a version other than 1 */
    CONSOLIDATION_BAD_HEADER = 3,         /* a face, count, start, specific gravity or spare byte (5 to 15) has a
                                             value that it cannot have */
    CONSOLIDATION_BAD_LENGTH = 4,         /* the length is not what the counts ask for */
    CONSOLIDATION_BAD_FIELD = 5,          /* a level, the end, the budget, a solids or a water height is outside its
                                             limits; or the bottom level of a closed bottom, or a water height in
                                             start 1, is not 0 */
    CONSOLIDATION_BAD_COMPRESSIBILITY = 6, /* a point outside its limits, stresses that do not rise or void ratios
                                             that do not fall */
    CONSOLIDATION_BAD_CONDUCTIVITY = 7,   /* a point outside its limits, void ratios that do not rise, conductivities
                                             that fall, or void ratios of the first curve that are not covered */
    CONSOLIDATION_BAD_LOAD_TABLE = 8,     /* a point outside its limits, a first time other than 0, or times that do
                                             not rise */
    CONSOLIDATION_BAD_START = 9,          /* start 0 or 2: an element's void ratio is off the compressibility curve;
                                             start 1: the curve has no state of rest for an element, or the bottom
                                             is drained and its level is not the top's */
    CONSOLIDATION_SHORT_RESULT = 10,      /* result_length is less than the result has; of readings, answers_length
                                             is less than the answers need; of flows, flows_length or
                                             remainders_length is less than there are flows */
    CONSOLIDATION_BAD_STEP = 13,          /* of flows: the step is not 1 to 1,000,000 s long, or it would take the
                                             clock past 3,000,000,000 s */
    CONSOLIDATION_STEP_TOO_LONG = 14,     /* of flows: 2 x c x G x t is above R for an element and an inner or drained
                                             face of it; c is 100,000,000 / solids and G the first curve's greatest
                                             stress rise / void fall, each rounded up */
    CONSOLIDATION_STEP_OFF_CURVE = 15,    /* of flows: the step would take an element's void ratio past an end of the
                                             compressibility curve */
    CONSOLIDATION_SHORT_JOB = 17,         /* job_length is less than the job has */
    CONSOLIDATION_BAD_READING = 18,       /* a reading is not finite, or above 2,000 kPa or 200 m in size */
    CONSOLIDATION_BAD_ELEMENT = 19,       /* the element of a reading is not 1 to N */
    CONSOLIDATION_NOT_STEADY = 20         /* start 2: the layer is on the curve but not steady */
};

/* Byte 5 of a result. */
enum {
    CONSOLIDATION_AT_END = 0,             /* the clock is at the job's end */
    CONSOLIDATION_BUDGET_USED = 1,        /* the budget was used before the end */
    CONSOLIDATION_NO_STEP = 2,            /* even a step of one second would be too long */
    CONSOLIDATION_OFF_CURVE = 3           /* the next step would leave the compressibility curve */
};

/* Works the job and writes its key at the beginning of `result`.
 *
 * `job` has `job_length` bytes, which are read and not changed; `result` has `result_length` bytes, which may be
 * more than the result needs. Neither pointer may be null, whatever its length. The two must not overlap. Neither
 * pointer is kept.
 *
 * Returns 0 when the result is written: then its 56 + 40 x N bytes are, and those after it are as they were. Any
 * stop counts as written, so look at byte 5. Otherwise it returns the number of the cause, 1 to 10 or 20, and all
 * of `result` is as it was. No other number is returned.
 *
 * No memory is allocated and no state is kept from one call to the next. The function is re-entrant: threads may
 * call it at the same time, each with a result of its own. It uses less than 16 KiB of stack. A call takes time at
 * most in proportion to the steps taken, of which there are at most 1,000,000, times N and the points of the curves
 * and the table.
 *
 * Example, of a job that was read from a file:
 *
 *     uint8_t job[CONSOLIDATION_MOST_JOB_BYTES + 1];
 *     uint8_t result[CONSOLIDATION_MOST_RESULT_BYTES];
 *     size_t length = fread(job, 1, sizeof job, file);
 *     uint32_t cause = consolidation_key(job, length, result, sizeof result);
 *     if (cause != CONSOLIDATION_DONE)
 *         fprintf(stderr, "refused %u\n", (unsigned)cause);
 *     else
 *         fwrite(result, 1, CONSOLIDATION_RESULT_BYTES(result[6]), stdout);
 */
uint32_t consolidation_key(const uint8_t *job, size_t job_length, uint8_t *result, size_t result_length);

/* Writes the job of a description at the beginning of `job`.
 *
 * `description` has `words` numbers, which are read and not changed; those past its end count as 0, and those past
 * 652 are not looked at. Any numbers will do. `job` has `job_length` bytes, which may be more than the job needs.
 * Neither pointer may be null, whatever its length. The two must not overlap. Neither pointer is kept.
 *
 * Returns the length of the job, which is at least 144, when it is written: then so many bytes of `job` are, and
 * those after them are as they were. Otherwise it returns the number of the cause, and all of `job` is as it was: 3,
 * 5, 6, 7, 8, 9 or 20, by the tests that `consolidation_key` makes, and last 17 where `job_length` is less than the
 * job has. No other number is returned, so one below CONSOLIDATION_JOB_HEAD is a cause.
 *
 * Opening accepts every job that is written. The water is written as it is given, never as the start finds it, so
 * writing what an accepted job says gives its bytes again.
 *
 * Memory, state and threads are as for the key; it uses less than 12 KiB of stack.
 *
 * Example:
 *
 *     uint64_t description[CONSOLIDATION_DESCRIPTION_WORDS] = {0};
 *     uint8_t job[CONSOLIDATION_MOST_JOB_BYTES];
 *     description[CONSOLIDATION_TOP_AT] = 1;
 *     description[CONSOLIDATION_ELEMENTS_AT] = 2;
 *     description[CONSOLIDATION_SOLIDS_AT] = description[CONSOLIDATION_SOLIDS_AT + 1] = 1000000;
 *     ...
 *     uint64_t length = consolidation_job(description, CONSOLIDATION_DESCRIPTION_WORDS, job, sizeof job);
 *     if (length < CONSOLIDATION_JOB_HEAD)
 *         fprintf(stderr, "refused %u\n", (unsigned)length);
 *     else
 *         fwrite(job, 1, length, file);
 */
uint64_t consolidation_job(const uint64_t *description, size_t words, uint8_t *job, size_t job_length);

/* Works the job and answers readings on the layer that its run leaves, at the job's own end or where its run stopped.
 *
 * `job` has `job_length` bytes and `readings` has `readings_length` words, three for each reading; both are read and
 * not changed. Words of a last reading that lacks some are not looked at. `answers` has `answers_length` words, which
 * may be more than the answers need: five for each reading. Any bytes and numbers will do. No pointer may be null,
 * whatever its length. `answers` must not overlap the others. No pointer is kept.
 *
 * Returns 0 when the answers are written, one after the other in the order of the readings: those words are, and the
 * ones after them are as they were. Each reading is answered or refused by itself. Otherwise it returns the number of
 * the cause, and all of `answers` is as it was: 1 to 9 or 20, by the tests that `consolidation_key` makes, and last
 * 10. No other number is returned.
 *
 * Memory, state and threads are as for the key; it uses less than 24 KiB of stack. It takes the time of the key,
 * and for each reading the same time whatever N is.
 *
 * Example, of one reading of 12.5 kPa in the second element:
 *
 *     float kilopascals = 12.5f;
 *     uint32_t bits;
 *     memcpy(&bits, &kilopascals, sizeof bits);
 *     uint64_t reading[CONSOLIDATION_READING_WORDS] = {2, CONSOLIDATION_PRESSURE, bits};
 *     uint64_t answer[CONSOLIDATION_ANSWER_WORDS];
 *     uint32_t cause = consolidation_readings(job, length, reading, 3, answer, 5);
 *     if (cause != CONSOLIDATION_DONE)
 *         fprintf(stderr, "refused %u\n", (unsigned)cause);
 *     else if (answer[0] != CONSOLIDATION_DONE)
 *         fprintf(stderr, "reading refused %u\n", (unsigned)answer[0]);
 *     else
 *         printf("%lld mPa above the pore pressure\n", (long long)(int64_t)answer[4]);
 */
uint32_t consolidation_readings(const uint8_t *job, size_t job_length, const uint64_t *readings,
                                size_t readings_length, uint64_t *answers, size_t answers_length);

/* Works the job and gives what flows through the faces of the layer that its run leaves, at the job's own end or where
 * its run stopped, in a step of `seconds`, with what each division left. No step is taken: the flows are those of the
 * layer as it stands, and they are refused as the step is.
 *
 * `job` has `job_length` bytes, which are read and not changed. Any bytes and any `seconds` will do. `flows` has
 * `flows_length` numbers and `remainders` has `remainders_length`, which may be more than there are flows;
 * CONSOLIDATION_MOST_FLOWS is always enough. No pointer may be null, whatever its length. The two must not overlap each
 * other or the job. No pointer is kept.
 *
 * Returns the number of flows, 0 to 129: then so many numbers at the beginning of `flows` are the flows from the bottom
 * up, as many at the beginning of `remainders` are what their divisions left, and those after them are as they were.
 * One element between two closed faces has no flow, so 0 is no refusal. Otherwise it returns minus the number of the
 * cause, and all of `flows` and `remainders` is as it was: 1 to 9 or 20, by the tests that `consolidation_key` makes;
 * then 10, which is tested before the job is run; and last 13, 14 or 15, of the step. No other number is returned.
 *
 * Memory, state and threads are as for the key; it uses less than 40 KiB of stack. It takes the time of the key, and
 * that of one step more.
 *
 * Example, of a step of 100 s:
 *
 *     int64_t flows[CONSOLIDATION_MOST_FLOWS], remainders[CONSOLIDATION_MOST_FLOWS];
 *     int64_t count = consolidation_flows(job, length, 100, flows, CONSOLIDATION_MOST_FLOWS, remainders,
 *                                         CONSOLIDATION_MOST_FLOWS);
 *     if (count < 0)
 *         fprintf(stderr, "refused %u\n", (unsigned)-count);
 *     for (int64_t face = 0; face < count; face++)
 *         printf("%lld nm, remainder %lld mPa s\n", (long long)flows[face], (long long)remainders[face]);
 */
int64_t consolidation_flows(const uint8_t *job, size_t job_length, uint64_t seconds, int64_t *flows,
                            size_t flows_length, int64_t *remainders, size_t remainders_length);

#ifdef __cplusplus
}
#endif

#endif
