/*
 * Each order and its tests alone on the paper's day: with lists that are just long enough, with each list a number short, and on a
 * day that is not sound. Both must answer the same, and the tests must leave the book as it was. Prints what they answer.
 */
#include <inttypes.h>
#include <string.h>

#include "paper_day.h"

/* An order of one basket makes so many records, and so many reports to each party. */
enum { RECORDS = 8, REPORTS = 4, LISTS = 3 };

static const char *const list_names[LISTS] = {"records", "investor's", "fund's"};
static uint64_t records[ROFFELAINE_RECORD_WIDTH * RECORDS];
static uint64_t investor[ROFFELAINE_REPORT_WIDTH * REPORTS];
static uint64_t fund[ROFFELAINE_REPORT_WIDTH * REPORTS];

#define DAY_RUNS day, ROFFELAINE_DAY_WIDTH, book, ROFFELAINE_BOOK_LENGTH(ACCOUNTS, N), prices, N
#define LENGTHS lengths[0], lengths[1], lengths[2]
#define LENT_LISTS records, lengths[0], investor, lengths[1], fund, lengths[2]
#define ANSWER &answer.place, &answer.value, &answer.reports

static struct roffelaine_answer tested(int creates, const size_t *lengths)
{
    struct roffelaine_answer answer;
    answer.number = creates ? roffelaine_creation_test(DAY_RUNS, 1, BASKET, LENGTHS, ANSWER)
                            : roffelaine_redemption_test(DAY_RUNS, 1, BASKET, LENGTHS, ANSWER);
    return answer;
}

static struct roffelaine_answer ordered(int creates, const size_t *lengths)
{
    struct roffelaine_answer answer;
    answer.number = creates ? roffelaine_create(DAY_RUNS, 1, BASKET, LENT_LISTS, ANSWER)
                            : roffelaine_redeem(DAY_RUNS, 1, BASKET, LENT_LISTS, ANSWER);
    return answer;
}

/* The tests alone and the order; the book is then put back as it was. */
static void try_both(int creates, const size_t *lengths, const char *what, const char *how)
{
    static uint64_t before[ROFFELAINE_BOOK_LENGTH(ACCOUNTS, N)];
    struct roffelaine_answer of_tests, of_order;
    memcpy(before, book, sizeof book);
    of_tests = tested(creates, lengths);
    must(memcmp(book, before, sizeof book) == 0, "the tests leave the book");
    of_order = ordered(creates, lengths);
    must((memcmp(book, before, sizeof book) != 0) == (of_order.number == 0), "the order moves where it is accepted");
    memcpy(book, before, sizeof book);
    must(memcmp(&of_tests, &of_order, sizeof of_tests) == 0, "the tests answer what the order does");
    printf(
        "%s, %s%s: %" PRIu64 " %" PRIu64 " %" PRIu64 " %" PRIu64 "\n", creates ? "creation" : "redemption", what, how,
        of_tests.number, of_tests.place, of_tests.value, of_tests.reports);
}

static void try_order(int creates)
{
    size_t lengths[LISTS] = {
        sizeof records / sizeof records[0], sizeof investor / sizeof investor[0], sizeof fund / sizeof fund[0]};
    const uint64_t price = prices[0];
    size_t k;
    try_both(creates, lengths, "lists just enough", "");
    for (k = 0; k < LISTS; k++) {
        lengths[k]--;
        try_both(creates, lengths, list_names[k], " a number short");
        lengths[k]++;
    }
    prices[0] = 10000000;
    try_both(creates, lengths, "a price out of range", "");
    prices[0] = price;
}

int main(int count, char **words)
{
    must(count == 2, "the list text is named");
    open_paper_day(words[1]);
    try_order(1);
    try_order(0);
    return 0;
}
