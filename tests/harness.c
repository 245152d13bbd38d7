// Calls the key on every job, the writer of jobs on every description, the answerer of readings on every job with
// readings and the divider of steps on every job with seconds of standard input, as reference/make_cases.py writes
// them, and compares the number returned, all of the output buffers, the inputs and the bytes around all of them with
// what the case says. Each case is worked twice: between guard bytes, and with inputs and outputs ending where a
// protected page begins.
#define _GNU_SOURCE
#include <signal.h>
#include <stdint.h>
#include <stdio.h>
#include <stdlib.h>
#include <string.h>
#include <sys/mman.h>
#include <unistd.h>

#include "consolidation_key.h"

enum { MOST_BYTES = 65536, GUARD = 256, WORD = sizeof(uint64_t), NUMBERS = 21, STOPS = 4, SIGNS = 3 };
enum { READING = 3 * WORD, ANSWER = 5 * WORD, READING_NUMBERS = 20 };
enum { FIRST_OPENING = 1, LAST_OPENING = 10, BAD_STEP = 13, OFF_CURVE = 15, NOT_STEADY = 20, MOST_ENTRIES = 129 };

enum kind { END, KEY, WRITER, READINGS, FLOWS };

// The input is a job for the key, the words of a description for the writer, a job with readings, which are words, or a
// job with the seconds of a step, a word, which stands in the place of the readings. Flows go to the output and
// remainders, as many, to the second output, which no other kind has.
struct test_case {
    uint64_t kind, input_len, readings_len, room, second_room, number, written;
    uint8_t input[MOST_BYTES], readings[MOST_BYTES], output[MOST_BYTES], second_output[MOST_BYTES];
};

// How many cases were answered by each number, a job's length counting as 0, and how many readings by each.
struct tally {
    uint64_t jobs, descriptions, lists, readings, missing;
    uint64_t numbers[NUMBERS], stops[STOPS], answers[NUMBERS], list_numbers[NUMBERS];
    uint64_t reading_numbers[READING_NUMBERS];
    uint64_t steps, entries, accepted_steps, step_numbers[NUMBERS], flow_signs[SIGNS], remainder_signs[SIGNS];
};

// Writable bytes in front of a protected page.
struct area {
    uint8_t *start, *end;
};

// What is handed to a function: bytes in an area, between guard bytes.
struct part {
    const char *name;
    uint8_t *bytes;
    uint64_t len, behind;
};

static struct test_case current;
static uint64_t case_number;
static volatile sig_atomic_t calling;

static _Noreturn void broken_input(const char *what)
{
    fprintf(stderr, "harness: the cases end or break off after case %llu: %s\n", (unsigned long long)case_number, what);
    exit(2);
}

static uint64_t read_word(void)
{
    uint8_t bytes[8];
    if (fread(bytes, 1, 8, stdin) != 8)
        broken_input("no word");
    uint64_t word = 0;
    for (int i = 7; i >= 0; i--)
        word = word << 8 | bytes[i];
    return word;
}

static uint64_t word_at(const uint8_t *bytes)
{
    uint64_t word;
    memcpy(&word, bytes, WORD);
    return word;
}

static void read_bytes(uint8_t *bytes, uint64_t count)
{
    if (count > MOST_BYTES || fread(bytes, 1, count, stdin) != count)
        broken_input("no bytes");
}

// Reads words, as many as so many bytes hold, in the machine's own order of bytes.
static void read_words(uint8_t *bytes, uint64_t count)
{
    if (count > MOST_BYTES || count % WORD != 0)
        broken_input("no words");
    for (uint64_t at = 0; at < count; at += WORD) {
        uint64_t word = read_word();
        memcpy(bytes + at, &word, WORD);
    }
}

// Whether a number is 0 or a cause for which a job is refused.
static int is_job_number(uint64_t number)
{
    return number <= LAST_OPENING || number == NOT_STEADY;
}

// Whether the number of a division is that of its entries, or minus a cause for which it is refused.
static int is_division_number(int64_t number)
{
    if (number >= 0)
        return number <= MOST_ENTRIES && current.written == WORD * (uint64_t)number;
    uint64_t cause = (uint64_t)-number;
    return current.written == 0 && (is_job_number(cause) || (cause >= BAD_STEP && cause <= OFF_CURVE));
}

// Whether the number of the current case is one of its kind, and what is to be written fits.
static int is_case(void)
{
    if (current.room > MOST_BYTES || current.written > current.room)
        return 0;
    if (current.kind == FLOWS)
        return current.readings_len == WORD && current.room % WORD == 0 && current.second_room % WORD == 0 &&
               current.second_room <= MOST_BYTES && current.written <= current.second_room &&
               is_division_number((int64_t)current.number);
    if (current.second_room != 0)
        return 0;
    if (current.kind == KEY)
        return is_job_number(current.number);
    if (current.kind == WRITER)
        return current.written == (current.number < NUMBERS ? 0 : current.number);
    return current.kind == READINGS && is_job_number(current.number) && current.room % WORD == 0 &&
           current.written == (current.number == 0 ? current.readings_len / READING * ANSWER : 0);
}

// Reads the next case; 0 after the last.
static int read_case(void)
{
    current.kind = read_word();
    if (current.kind == END) {
        if (read_word() != case_number)
            broken_input("another number of cases");
        return 0;
    }
    current.input_len = read_word();
    current.readings_len = read_word();
    current.room = read_word();
    current.second_room = read_word();
    current.number = read_word();
    current.written = read_word();
    if (!is_case())
        broken_input("no case");
    if (current.kind == WRITER)
        read_words(current.input, current.input_len);
    else
        read_bytes(current.input, current.input_len);
    read_words(current.readings, current.readings_len);
    if (current.kind == READINGS || current.kind == FLOWS)
        read_words(current.output, current.written);
    else
        read_bytes(current.output, current.written);
    if (current.kind == FLOWS)
        read_words(current.second_output, current.written);
    case_number++;
    return 1;
}

static void print_bytes(const uint8_t *bytes, uint64_t count)
{
    for (uint64_t i = 0; i < count; i++)
        printf("%02x", bytes[i]);
    printf("\n");
}

static _Noreturn void differ(const char *what, const char *name, uint64_t at, uint64_t expected, uint64_t got)
{
    static const char *const kinds[] = {"end", "job", "description", "job with readings", "job with seconds"};
    printf("case %llu, a %s, differs: %s %s", (unsigned long long)case_number, kinds[current.kind], what, name);
    if (at != UINT64_MAX)
        printf(", byte %llu", (unsigned long long)at);
    printf(": expected %lld, got %lld\n", (long long)expected, (long long)got);
    printf("expected number %lld, %llu bytes written; room %llu and %llu, input of %llu bytes:\n",
           (long long)current.number, (unsigned long long)current.written, (unsigned long long)current.room,
           (unsigned long long)current.second_room, (unsigned long long)current.input_len);
    print_bytes(current.input, current.input_len);
    if (current.kind == FLOWS)
        printf("seconds %llu\n", (unsigned long long)word_at(current.readings));
    if (current.kind == READINGS) {
        printf("readings of %llu words:\n", (unsigned long long)(current.readings_len / WORD));
        print_bytes(current.readings, current.readings_len);
    }
    exit(1);
}

static void on_fault(int signal_number)
{
    if (calling)
        differ("memory was touched outside", "the buffers", UINT64_MAX, 0, (uint64_t)signal_number);
    _exit(2);
}

static struct area new_area(void)
{
    size_t page = (size_t)sysconf(_SC_PAGESIZE);
    size_t size = (MOST_BYTES + 2 * GUARD + page) / page * page + page;
    uint8_t *start = mmap(NULL, size + page, PROT_READ | PROT_WRITE, MAP_PRIVATE | MAP_ANONYMOUS, -1, 0);
    if (start == MAP_FAILED || mprotect(start + size, page, PROT_NONE) != 0) {
        perror("harness");
        exit(2);
    }
    return (struct area){start, start + size};
}

// A byte of a guard, other at every place.
static uint8_t guard_byte(uint64_t place)
{
    return (uint8_t)(place * 37 + 11);
}

static void set_guard(uint8_t *start, uint64_t count)
{
    for (uint64_t i = 0; i < count; i++)
        start[i] = guard_byte(i);
}

// A part of so many bytes with so many guard bytes behind it, all of which fill the end of an area.
static struct part new_part(const char *name, struct area area, uint64_t len, uint64_t behind)
{
    struct part part = {name, area.end - behind - len, len, behind};
    set_guard(part.bytes - GUARD, GUARD);
    set_guard(part.bytes + len, behind);
    return part;
}

static struct part new_input(const char *name, struct area area, const uint8_t *bytes, uint64_t len, uint64_t behind)
{
    struct part part = new_part(name, area, len, behind);
    memcpy(part.bytes, bytes, len);
    return part;
}

static void check_guard(const uint8_t *start, uint64_t count, const char *what, const char *name)
{
    for (uint64_t i = 0; i < count; i++)
        if (start[i] != guard_byte(i))
            differ(what, name, i, guard_byte(i), start[i]);
}

static void check_guards(struct part part)
{
    check_guard(part.bytes - GUARD, GUARD, "before", part.name);
    check_guard(part.bytes + part.len, part.behind, "behind", part.name);
}

static void check_input(struct part part, const uint8_t *bytes)
{
    for (uint64_t i = 0; i < part.len; i++)
        if (part.bytes[i] != bytes[i])
            differ("in", part.name, i, bytes[i], part.bytes[i]);
    check_guards(part);
}

static void check_output(struct part part, const uint8_t *bytes, uint64_t written, uint8_t filler)
{
    for (uint64_t i = 0; i < written; i++)
        if (part.bytes[i] != bytes[i])
            differ("in", part.name, i, bytes[i], part.bytes[i]);
    for (uint64_t i = written; i < part.len; i++)
        if (part.bytes[i] != filler)
            differ("in the buffer past", part.name, i, filler, part.bytes[i]);
    check_guards(part);
}

// Calls the function of the current case's kind; words stand where words may stand.
static uint64_t call(const uint8_t *input, const void *readings, void *output, void *second)
{
    if (current.kind == FLOWS)
        return (uint64_t)consolidation_flows(input, current.input_len, word_at(readings), output, current.room / WORD,
                                             second, current.second_room / WORD);
    if (current.kind == KEY)
        return consolidation_key(input, current.input_len, output, current.room);
    if (current.kind == WRITER)
        return consolidation_job((const uint64_t *)(const void *)input, current.input_len / WORD, output, current.room);
    return consolidation_readings(input, current.input_len, readings, current.readings_len / WORD, output,
                                  current.room / WORD);
}

// Guard bytes behind what is handed over: more from case to case, and whole words where words stand.
static uint64_t shifted(int words)
{
    uint64_t shift = case_number % 8;
    return GUARD + (words ? WORD * shift : shift);
}

// Works the current case, the output filled with a byte: between guard bytes, or at the end of the areas.
static void work(const struct area areas[4], int between, uint8_t filler)
{
    uint64_t behind_input = between ? shifted(current.kind == WRITER) : 0, behind_words = between ? shifted(1) : 0;
    uint64_t behind_output = between ? shifted(current.kind == READINGS || current.kind == FLOWS) : 0;
    struct part input = new_input("the input", areas[0], current.input, current.input_len, behind_input);
    struct part readings = new_input("the readings", areas[1], current.readings, current.readings_len, behind_words);
    struct part output = new_part("the output", areas[2], current.room, behind_output);
    struct part second = new_part("the second output", areas[3], current.second_room, behind_words);
    memset(output.bytes, filler, output.len);
    memset(second.bytes, filler, second.len);

    calling = 1;
    uint64_t number = call(input.bytes, readings.bytes, output.bytes, second.bytes);
    calling = 0;

    if (number != current.number)
        differ("number", "returned", UINT64_MAX, current.number, number);
    check_output(output, current.output, current.written, filler);
    check_output(second, current.second_output, current.kind == FLOWS ? current.written : 0, filler);
    check_input(input, current.input);
    check_input(readings, current.readings);
}

static void count_readings(struct tally *tally)
{
    tally->lists++;
    tally->list_numbers[current.number]++;
    for (uint64_t at = 0; at < current.written; at += ANSWER) {
        tally->readings++;
        tally->reading_numbers[word_at(current.output + at) % READING_NUMBERS]++;
        tally->missing += word_at(current.output + at + WORD);
    }
}

// The place of a number's sign: 0 for one below 0, 1 for 0, 2 for one above 0.
static int sign_of(uint64_t word)
{
    int64_t number = (int64_t)word;
    return (number > 0) - (number < 0) + 1;
}

static void count_flows(struct tally *tally)
{
    int64_t number = (int64_t)current.number;
    tally->steps++;
    if (number < 0)
        tally->step_numbers[-number]++;
    else
        tally->accepted_steps++;
    for (uint64_t at = 0; at < current.written; at += WORD) {
        tally->entries++;
        tally->flow_signs[sign_of(word_at(current.output + at))]++;
        tally->remainder_signs[sign_of(word_at(current.second_output + at))]++;
    }
}

static void count(struct tally *tally)
{
    if (current.kind == FLOWS) {
        count_flows(tally);
        return;
    }
    if (current.kind == WRITER) {
        tally->descriptions++;
        tally->answers[current.number < NUMBERS ? current.number : 0]++;
        return;
    }
    if (current.kind == READINGS) {
        count_readings(tally);
        return;
    }
    tally->jobs++;
    tally->numbers[current.number]++;
    if (current.number == 0)
        tally->stops[current.output[5] % STOPS]++;
}

// Prints counts by their numbers, from a first number on; a count of 0 only if all are asked for.
static void print_counts(const uint64_t *counts, int first, int end, int all)
{
    const char *between = "";
    for (int i = first; i < end; i++)
        if (all || counts[i] != 0) {
            printf("%s %d: %llu", between, i, (unsigned long long)counts[i]);
            between = ",";
        }
}

// Prints how often a job was refused for each cause.
static void print_refusals(const uint64_t *counts)
{
    print_counts(counts, FIRST_OPENING, LAST_OPENING + 1, 1);
    printf(", %d: %llu", NOT_STEADY, (unsigned long long)counts[NOT_STEADY]);
}

// Prints how many numbers were below 0, 0 and above 0.
static void print_signs(const char *what, const uint64_t *signs)
{
    printf("%s below 0 %llu, 0 %llu, above 0 %llu", what, (unsigned long long)signs[0], (unsigned long long)signs[1],
           (unsigned long long)signs[2]);
}

static void print_flows(const struct tally *tally)
{
    printf("; %llu divided steps agree: accepted %llu; refused", (unsigned long long)tally->steps,
           (unsigned long long)tally->accepted_steps);
    print_counts(tally->step_numbers, 1, NUMBERS, 0);
    printf("; %llu entries:", (unsigned long long)tally->entries);
    print_signs(" flow", tally->flow_signs);
    print_signs("; remainder", tally->remainder_signs);
}

static void print_tally(const struct tally *tally)
{
    printf("%llu jobs agree: accepted %llu; refused", (unsigned long long)tally->jobs,
           (unsigned long long)tally->numbers[0]);
    print_refusals(tally->numbers);
    printf("; stops");
    print_counts(tally->stops, 0, STOPS, 1);
    printf("; %llu descriptions agree: written %llu; refused", (unsigned long long)tally->descriptions,
           (unsigned long long)tally->answers[0]);
    print_counts(tally->answers, 1, NUMBERS, 0);
    printf("; %llu lists of readings agree: answered %llu; refused", (unsigned long long)tally->lists,
           (unsigned long long)tally->list_numbers[0]);
    print_refusals(tally->list_numbers);
    printf("; %llu readings: compared %llu, missing %llu; refused", (unsigned long long)tally->readings,
           (unsigned long long)(tally->reading_numbers[0] - tally->missing), (unsigned long long)tally->missing);
    print_counts(tally->reading_numbers, 1, READING_NUMBERS, 0);
    print_flows(tally);
    printf("\n");
}

int main(void)
{
    struct tally tally = {0};
    const struct area areas[4] = {new_area(), new_area(), new_area(), new_area()};
    signal(SIGSEGV, on_fault);
    signal(SIGBUS, on_fault);
    while (read_case()) {
        work(areas, 1, 165);
        work(areas, 0, 90);
        count(&tally);
    }
    print_tally(&tally);
    return 0;
}
