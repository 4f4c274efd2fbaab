/* The paper's day to compare with, opened from the list text of a file, for the tests of the C kit. */
#ifndef PAPER_DAY_H
#define PAPER_DAY_H

#include <stdio.h>
#include <stdlib.h>

#include "roffelaine.h"
#include "roffelaine_util.h"

enum { ACCOUNTS = 3, N = 5, BASKET = 1000000 };

static uint8_t text[ROFFELAINE_LONGEST_TEXT];
static size_t text_length;
static uint64_t fields[ROFFELAINE_FIELDS_WIDTH];
static uint64_t component_run[ROFFELAINE_COMPONENT_WIDTH * N];
static uint64_t first_row;
static uint64_t holdings[ROFFELAINE_HOLDINGS_LENGTH(ACCOUNTS, N)];
static uint64_t book[ROFFELAINE_BOOK_LENGTH(ACCOUNTS, N)];
static uint64_t prices[N];
static uint64_t day[ROFFELAINE_DAY_WIDTH];

static void must(int holds, const char *what)
{
    if (!holds) {
        printf("fails: %s\n", what);
        exit(1);
    }
}

static void read_text(const char *path)
{
    FILE *file = fopen(path, "rb");
    must(file != NULL, "the list text is there");
    text_length = fread(text, 1, sizeof text, file);
    fclose(file);
}

/*
 * Opens the day and sets its prices: the fund has ample cash and stock, account 1 cash, 3072 of 600000, 3000 of 600036 and one
 * basket of units, account 2 cash.
 */
static void open_paper_day(const char *path)
{
    static const uint64_t held[ACCOUNTS][N + 2] = {
        {1000000000, 1000000, 1000000, 1000000, 1000000, 1000000, 0},
        {1000000000, 0, 0, 3072, 3000, 0, BASKET},
        {500000, 0, 0, 0, 0, 0, 0},
    };
    static const uint64_t priced[N] = {12000, 0, 10000, 40000, 0};
    uint64_t place, value;
    size_t account, k;
    read_text(path);
    must(
        roffelaine_read(
            text, text_length, NULL, 0, component_run, ROFFELAINE_COMPONENT_WIDTH * N, fields, ROFFELAINE_FIELDS_WIDTH,
            &first_row, &place, &value) == ROFFELAINE_ACCEPTED,
        "the list is read");
    must(value == N, "the list has five components");
    for (account = 0; account < ACCOUNTS; account++)
        for (k = 0; k < N + 2; k++)
            holdings[(N + 2) * account + k] = held[account][k];
    must(
        roffelaine_open(
            ACCOUNTS, N, fields, ROFFELAINE_FUND_WIDTH, NULL, 0, component_run, ROFFELAINE_COMPONENT_WIDTH * N,
            holdings, ROFFELAINE_HOLDINGS_LENGTH(ACCOUNTS, N), book, ROFFELAINE_BOOK_LENGTH(ACCOUNTS, N), prices, N,
            day, ROFFELAINE_DAY_WIDTH, &place, &value) == ROFFELAINE_ACCEPTED,
        "the day opens");
    for (k = 0; k < N; k++) {
        must(
            priced[k] == 0
                || roffelaine_price(
                       day, ROFFELAINE_DAY_WIDTH, book, ROFFELAINE_BOOK_LENGTH(ACCOUNTS, N), prices, N, k, priced[k],
                       &place, &value) == ROFFELAINE_ACCEPTED,
            "the price is set");
    }
}

#endif
