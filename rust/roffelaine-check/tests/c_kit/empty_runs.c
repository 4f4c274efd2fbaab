/*
 * Every call with each set of its runs empty. An empty run is passed in three ways: with a pointer to numbers, with null, and with
 * a pointer to memory that may not be touched. What the call answers and leaves must be the same. Prints for each call what it
 * answers with no run empty, with each run alone empty, and with all. Then the same on a day that is not open.
 */
#define _DEFAULT_SOURCE /* MAP_ANONYMOUS */
#include <string.h>
#include <sys/mman.h>

#include "paper_day.h"

enum { MOST_RUNS = 8, ROWS = 3, ORDERS = 2 };

/* A run that a call is lent: where its numbers are kept, how many bytes one takes, and what is passed. */
struct run {
    const char *name;
    void *kept;
    size_t width;
    size_t count;
    void *pointer;
};

struct call {
    const char *name;
    uint64_t (*make)(const struct run *runs, uint64_t *place, uint64_t *value);
    size_t count;
    struct run runs[MOST_RUNS];
};

static uint64_t records[ORDERS * ROFFELAINE_RECORD_WIDTH * ROFFELAINE_MOST_RECORDS(N)];
static uint64_t investor[ORDERS * ROFFELAINE_REPORT_WIDTH * ROFFELAINE_MOST_REPORTS(N)];
static uint64_t fund[ORDERS * ROFFELAINE_REPORT_WIDTH * ROFFELAINE_MOST_REPORTS(N)];
static uint64_t rows[ROFFELAINE_ROW_WIDTH * ROWS];
static uint64_t answers[ROFFELAINE_ANSWER_WIDTH * ROWS];
static uint64_t part[ROFFELAINE_PART_WIDTH];
static uint64_t table[ROFFELAINE_TABLE_WIDTH];
static uint64_t row_read, reports;
static uint8_t names[ROFFELAINE_NAME_WIDTH * N + 1] = "ONE     TWO     THREE   FOUR    FIVE    ";
static uint8_t letters[] = "510300";
static uint8_t output[ROFFELAINE_LONGEST_TEXT];

#define NUMBERS(k) (uint64_t *)runs[k].pointer, runs[k].count
#define BYTES(k) (uint8_t *)runs[k].pointer, runs[k].count

static uint64_t make_open(const struct run *runs, uint64_t *place, uint64_t *value)
{
    return roffelaine_open(
        ACCOUNTS, N, NUMBERS(0), NUMBERS(1), NUMBERS(2), NUMBERS(3), NUMBERS(4), NUMBERS(5), NUMBERS(6), place, value);
}

static uint64_t make_open_none(const struct run *runs, uint64_t *place, uint64_t *value)
{
    return roffelaine_open(
        0, 0, NUMBERS(0), NUMBERS(1), NUMBERS(2), NUMBERS(3), NUMBERS(4), NUMBERS(5), NUMBERS(6), place, value);
}

static uint64_t make_price(const struct run *runs, uint64_t *place, uint64_t *value)
{
    return roffelaine_price(NUMBERS(0), NUMBERS(1), NUMBERS(2), 2, 10001, place, value);
}

static uint64_t make_trade(const struct run *runs, uint64_t *place, uint64_t *value)
{
    return roffelaine_trade(NUMBERS(0), NUMBERS(1), NUMBERS(2), 2, 7, 10000, 1, 2, place, value);
}

static uint64_t make_reference_value(const struct run *runs, uint64_t *place, uint64_t *value)
{
    return roffelaine_reference_value(NUMBERS(0), NUMBERS(1), NUMBERS(2), place, value);
}

static uint64_t make_create(const struct run *runs, uint64_t *place, uint64_t *value)
{
    return roffelaine_create(
        NUMBERS(0), NUMBERS(1), NUMBERS(2), 1, BASKET, NUMBERS(3), NUMBERS(4), NUMBERS(5), place, value, &reports);
}

static uint64_t make_redeem(const struct run *runs, uint64_t *place, uint64_t *value)
{
    return roffelaine_redeem(
        NUMBERS(0), NUMBERS(1), NUMBERS(2), 1, BASKET, NUMBERS(3), NUMBERS(4), NUMBERS(5), place, value, &reports);
}

static uint64_t make_creation_test(const struct run *runs, uint64_t *place, uint64_t *value)
{
    return roffelaine_creation_test(
        NUMBERS(0), NUMBERS(1), NUMBERS(2), 1, BASKET, 1000, 1000, 1000, place, value, &reports);
}

static uint64_t make_redemption_test(const struct run *runs, uint64_t *place, uint64_t *value)
{
    return roffelaine_redemption_test(
        NUMBERS(0), NUMBERS(1), NUMBERS(2), 1, BASKET, 1000, 1000, 1000, place, value, &reports);
}

static uint64_t make_run(const struct run *runs, uint64_t *place, uint64_t *value)
{
    return roffelaine_run(
        NUMBERS(0), NUMBERS(1), NUMBERS(2), NUMBERS(3), NUMBERS(4), NUMBERS(5), NUMBERS(6), NUMBERS(7), place, value);
}

static uint64_t make_run_public(const struct run *runs, uint64_t *place, uint64_t *value)
{
    return roffelaine_run_public(
        NUMBERS(0), NUMBERS(1), NUMBERS(2), NUMBERS(3), NUMBERS(4), NUMBERS(5), NUMBERS(6), NUMBERS(7), place, value);
}

static uint64_t make_read(const struct run *runs, uint64_t *place, uint64_t *value)
{
    return roffelaine_read(BYTES(0), NUMBERS(1), NUMBERS(2), NUMBERS(3), &row_read, place, value);
}

static uint64_t make_name(const struct run *runs, uint64_t *place, uint64_t *value)
{
    *place = *value = 0;
    return roffelaine_name(BYTES(0), (size_t)first_row, 1, NUMBERS(1));
}

static uint64_t make_letters(const struct run *runs, uint64_t *place, uint64_t *value)
{
    *place = *value = 0;
    return roffelaine_letters(BYTES(0), NUMBERS(1));
}

static uint64_t make_write(const struct run *runs, uint64_t *place, uint64_t *value)
{
    return roffelaine_write(NUMBERS(0), NUMBERS(1), NUMBERS(2), BYTES(3), BYTES(4), BYTES(5), place, value);
}

#define NUMBER_RUN(name) {#name, name, sizeof name[0], sizeof name / sizeof name[0], NULL}
#define DAY_RUNS NUMBER_RUN(day), NUMBER_RUN(book), NUMBER_RUN(prices)
#define LIST_RUNS NUMBER_RUN(records), NUMBER_RUN(investor), NUMBER_RUN(fund)
#define BYTE_RUN(name, count) {#name, name, 1, count, NULL}

#define OPENING_RUNS \
    {"fund", fields, sizeof fields[0], ROFFELAINE_FUND_WIDTH, NULL}, NUMBER_RUN(table), NUMBER_RUN(component_run), \
        NUMBER_RUN(holdings), NUMBER_RUN(book), NUMBER_RUN(prices), NUMBER_RUN(day)

/* The length of the text is put in when it is known. */
static struct call calls[] = {
    {"open", make_open, 7, {OPENING_RUNS}},
    {"open, no account", make_open_none, 7, {OPENING_RUNS}},
    {"price", make_price, 3, {DAY_RUNS}},
    {"trade", make_trade, 3, {DAY_RUNS}},
    {"reference_value", make_reference_value, 3, {DAY_RUNS}},
    {"create", make_create, 6, {DAY_RUNS, LIST_RUNS}},
    {"redeem", make_redeem, 6, {DAY_RUNS, LIST_RUNS}},
    {"creation_test", make_creation_test, 3, {DAY_RUNS}},
    {"redemption_test", make_redemption_test, 3, {DAY_RUNS}},
    {"run", make_run, 8, {DAY_RUNS, NUMBER_RUN(rows), LIST_RUNS, NUMBER_RUN(answers)}},
    {"run_public", make_run_public, 8, {DAY_RUNS, NUMBER_RUN(rows), LIST_RUNS, NUMBER_RUN(answers)}},
    {"read", make_read, 4, {BYTE_RUN(text, 0), NUMBER_RUN(table), NUMBER_RUN(component_run), NUMBER_RUN(fields)}},
    {"name", make_name, 2, {BYTE_RUN(text, 0), NUMBER_RUN(part)}},
    {"letters", make_letters, 2, {BYTE_RUN(text, 0), NUMBER_RUN(part)}},
    {"write", make_write, 6,
     {NUMBER_RUN(fields), NUMBER_RUN(table), NUMBER_RUN(component_run), BYTE_RUN(names, sizeof names - 1),
      BYTE_RUN(letters, sizeof letters - 1), BYTE_RUN(output, sizeof output)}},
};
enum { CALLS = sizeof calls / sizeof calls[0] };

/*
 * What a call answers and leaves: its three numbers, the row of a reading and the reports of an order, and all numbers of its runs,
 * those that were not passed too.
 */
struct outcome {
    uint64_t answer[5];
    size_t length;
    uint8_t left[1 << 16];
};

static struct outcome before, outcomes[3];

static void keep(const struct call *call, struct outcome *outcome)
{
    size_t k;
    outcome->length = 0;
    for (k = 0; k < call->count; k++) {
        const size_t length = call->runs[k].width * call->runs[k].count;
        must(outcome->length + length <= sizeof outcome->left, "there is room for what is left");
        memcpy(outcome->left + outcome->length, call->runs[k].kept, length);
        outcome->length += length;
    }
}

static void put_back(const struct call *call, const struct outcome *outcome)
{
    size_t k, at = 0;
    for (k = 0; k < call->count; k++) {
        const size_t length = call->runs[k].width * call->runs[k].count;
        memcpy(call->runs[k].kept, outcome->left + at, length);
        at += length;
    }
}

/* Makes a call with the runs of a set empty: each has its own pointer, or this one. */
static void make(const struct call *call, unsigned empty, int own, void *pointer, struct outcome *outcome)
{
    struct run runs[MOST_RUNS];
    size_t k;
    for (k = 0; k < call->count; k++) {
        const int is_empty = (empty >> k & 1) != 0;
        runs[k] = call->runs[k];
        runs[k].pointer = is_empty && !own ? pointer : runs[k].kept;
        runs[k].count = is_empty ? 0 : runs[k].count;
    }
    row_read = reports = 7;
    outcome->answer[0] = call->make(runs, &outcome->answer[1], &outcome->answer[2]);
    outcome->answer[3] = row_read;
    outcome->answer[4] = reports;
    keep(call, outcome);
    put_back(call, &before);
}

static int same(const struct outcome *one, const struct outcome *other)
{
    return memcmp(one->answer, other->answer, sizeof one->answer) == 0 && one->length == other->length
        && memcmp(one->left, other->left, one->length) == 0;
}

/* What a set of empty runs is answered, the same in all three ways. */
static unsigned answered(const struct call *call, unsigned empty, void *untouchable)
{
    make(call, empty, 1, NULL, &outcomes[0]);
    make(call, empty, 0, NULL, &outcomes[1]);
    make(call, empty, 0, untouchable, &outcomes[2]);
    if (!same(&outcomes[0], &outcomes[1]) || !same(&outcomes[0], &outcomes[2])) {
        printf("%s differs, empty runs %#x\n", call->name, empty);
        exit(1);
    }
    return (unsigned)outcomes[0].answer[0];
}

/* A call with each set of its runs empty. */
static void try_call(const struct call *call, void *untouchable)
{
    size_t k;
    unsigned empty;
    keep(call, &before);
    printf("%s %u", call->name, answered(call, 0, untouchable));
    for (k = 0; k < call->count; k++)
        printf(", %s %u", call->runs[k].name, answered(call, 1u << k, untouchable));
    for (empty = 0; empty < 1u << call->count; empty++)
        answered(call, empty, untouchable);
    printf(", all %u\n", answered(call, (1u << call->count) - 1, untouchable));
}

int main(int count, char **words)
{
    void *untouchable = mmap(NULL, 4096, PROT_NONE, MAP_PRIVATE | MAP_ANONYMOUS, -1, 0);
    size_t at, k;
    must(count == 2, "the list text is named");
    must(untouchable != MAP_FAILED, "there is memory that may not be touched");
    open_paper_day(words[1]);
    roffelaine_our_table(table);
    roffelaine_row_price(rows, 0, 2, 10002);
    roffelaine_row_create(rows, 1, 1, BASKET, roffelaine_ample_lists(N, 0));
    roffelaine_row_redeem(rows, 2, 1, BASKET, roffelaine_ample_lists(N, 1));
    for (at = 0; at < CALLS; at++)
        for (k = 0; k < calls[at].count; k++)
            if (calls[at].runs[k].kept == text)
                calls[at].runs[k].count = text_length;
    for (at = 0; at < CALLS; at++)
        try_call(&calls[at], untouchable);
    printf("not open\n");
    memset(day, 0, sizeof day);
    for (at = 0; at < CALLS; at++)
        if (calls[at].runs[0].kept == day)
            try_call(&calls[at], untouchable);
    return 0;
}
