/*
 * The longest list text: written into exactly ROFFELAINE_LONGEST_TEXT bytes and read back. A text with one digit more at any place
 * is refused, and so is a list in which any number takes one digit more.
 */
#include <inttypes.h>
#include <stdio.h>
#include <string.h>

#include "roffelaine.h"
#include "roffelaine_util.h"

enum { N = ROFFELAINE_MOST_COMPONENTS, RUN = ROFFELAINE_COMPONENT_WIDTH * N, NAMES = ROFFELAINE_NAME_WIDTH * N };

static uint64_t fields[ROFFELAINE_FIELDS_WIDTH];
static uint64_t run[RUN];
static uint8_t names[NAMES];
static const char letters[] = "ABCDEFGH9";
static uint8_t output[ROFFELAINE_LONGEST_TEXT + 1];

/* The largest basket, and the largest limit, which is a multiple of it. */
static const uint64_t basket = 99999999, limit = UINT64_C(99999999) * 10000;

/* Fills the list whose every number takes as many bytes as it may. */
static void fill(void)
{
    size_t k;
    fields[ROFFELAINE_FUND_FIRST_CODE] = 999994;
    fields[ROFFELAINE_FUND_BASKET_SIZE] = basket;
    fields[ROFFELAINE_FUND_CASH_RATIO] = 100000;
    fields[ROFFELAINE_FUND_SWITCH] = 3;
    fields[ROFFELAINE_FUND_ESTIMATED_CASH] = 0;
    fields[ROFFELAINE_FUND_ESTIMATED_CASH + 1] = UINT64_C(9999999999);
    for (k = 0; k < 8; k++)
        fields[ROFFELAINE_FUND_LIMITS + k] = limit;
    fields[ROFFELAINE_FIELDS_PUBLISH] = 1;
    fields[ROFFELAINE_FIELDS_TRADING_DAY] = 99991231;
    fields[ROFFELAINE_FIELDS_PRE_TRADING_DAY] = 99991230;
    fields[ROFFELAINE_FIELDS_CASH_COMPONENT] = 1;
    fields[ROFFELAINE_FIELDS_CASH_COMPONENT + 1] = 999999999;
    fields[ROFFELAINE_FIELDS_NAV_PER_CU] = UINT64_C(99999999999);
    fields[ROFFELAINE_FIELDS_NAV] = 9999999;
    fields[ROFFELAINE_FIELDS_COMPONENTS] = N;
    for (k = 0; k < N; k++) {
        uint64_t *component = run + ROFFELAINE_COMPONENT_WIDTH * k;
        component[0] = 999694 + k; /* the last stands right before the fund's codes */
        component[1] = 99999999;
        component[2] = 3;
        component[3] = 100000;
        component[4] = 100000;
        component[5] = UINT64_C(99999999999);
    }
    memset(names, 'N', sizeof names);
}

static uint64_t write_list(size_t letter_count, size_t room, uint64_t *place, uint64_t *value)
{
    return roffelaine_write(
        fields, ROFFELAINE_FIELDS_WIDTH, NULL, 0, run, RUN, names, NAMES, (const uint8_t *)letters, letter_count, output, room,
        place, value);
}

static uint64_t read_list(const uint8_t *text, size_t length, uint64_t *place, uint64_t *value)
{
    static uint64_t run_read[RUN], fields_read[ROFFELAINE_FIELDS_WIDTH];
    uint64_t first_row;
    const uint64_t number = roffelaine_read(
        text, length, NULL, 0, run_read, RUN, fields_read, ROFFELAINE_FIELDS_WIDTH, &first_row, place, value);
    if (number != ROFFELAINE_ACCEPTED)
        return number;
    if (memcmp(run_read, run, sizeof run) != 0 || memcmp(fields_read, fields, sizeof fields) != 0)
        printf("another list is read\n");
    return number;
}

/* The text with each digit put in at each place. */
static void insert_digits(size_t length)
{
    static uint8_t longer[ROFFELAINE_LONGEST_TEXT + 1];
    unsigned long tried = 0, accepted = 0;
    uint64_t place, value;
    size_t at;
    uint8_t digit;
    memcpy(longer + 1, output, length);
    for (at = 0; at <= length; at++) {
        for (digit = '0'; digit <= '9'; digit++) {
            longer[at] = digit;
            tried += 1;
            accepted += read_list(longer, length + 1, &place, &value) == ROFFELAINE_ACCEPTED;
        }
        if (at < length)
            longer[at] = output[at];
    }
    printf("a digit more in the text: %lu tried, %lu accepted\n", tried, accepted);
}

/* The list with one number changed to one that takes a digit more. */
static void write_longer(const char *name, uint64_t *number, uint64_t longer)
{
    const uint64_t kept = *number;
    uint64_t place, value, refusal;
    *number = longer;
    refusal = write_list(8, sizeof output, &place, &value);
    printf("%s %" PRIu64 ": %" PRIu64 " %" PRIu64 "\n", name, longer, refusal, place);
    *number = kept;
}

int main(void)
{
    uint64_t place, value, number;
    uint64_t *last = run + ROFFELAINE_COMPONENT_WIDTH * (N - 1);
    size_t k;
    fill();
    number = write_list(8, ROFFELAINE_LONGEST_TEXT, &place, &value);
    printf("written: %" PRIu64 ", %" PRIu64 " bytes\n", number, value);
    number = read_list(output, (size_t)value, &place, &value);
    printf("read: %" PRIu64 ", %" PRIu64 " components\n", number, value);
    printf("%.*s\n", 13, (const char *)output);
    printf("a byte less: %" PRIu64 "\n", write_list(8, ROFFELAINE_LONGEST_TEXT - 1, &place, &value));
    printf("a letter more: %" PRIu64 "\n", write_list(9, sizeof output, &place, &value));
    insert_digits(ROFFELAINE_LONGEST_TEXT);
    /* Fundid1 is this code and one */
    write_longer("first code", &fields[ROFFELAINE_FUND_FIRST_CODE], 999999);
    write_longer("basket size", &fields[ROFFELAINE_FUND_BASKET_SIZE], 100000000);
    write_longer("cash ratio", &fields[ROFFELAINE_FUND_CASH_RATIO], 1000000);
    write_longer("switch", &fields[ROFFELAINE_FUND_SWITCH], 10);
    write_longer("estimated cash", &fields[ROFFELAINE_FUND_ESTIMATED_CASH + 1], UINT64_C(10000000000));
    fields[ROFFELAINE_FUND_ESTIMATED_CASH] = 1;
    write_longer("estimated cash below zero", &fields[ROFFELAINE_FUND_ESTIMATED_CASH + 1], 1000000000);
    fields[ROFFELAINE_FUND_ESTIMATED_CASH] = 0;
    for (k = 0; k < 8; k++)
        write_longer("limit", &fields[ROFFELAINE_FUND_LIMITS + k], limit + basket);
    write_longer("Publish", &fields[ROFFELAINE_FIELDS_PUBLISH], 10);
    write_longer("TradingDay", &fields[ROFFELAINE_FIELDS_TRADING_DAY], 100000101);
    write_longer("PreTradingDay", &fields[ROFFELAINE_FIELDS_PRE_TRADING_DAY], 100000101);
    write_longer("CashComponent below zero", &fields[ROFFELAINE_FIELDS_CASH_COMPONENT + 1], 1000000000);
    fields[ROFFELAINE_FIELDS_CASH_COMPONENT] = 0;
    write_longer("CashComponent", &fields[ROFFELAINE_FIELDS_CASH_COMPONENT + 1], UINT64_C(10000000000));
    fields[ROFFELAINE_FIELDS_CASH_COMPONENT] = 1;
    write_longer("NAVperCU", &fields[ROFFELAINE_FIELDS_NAV_PER_CU], UINT64_C(100000000000));
    write_longer("NAV", &fields[ROFFELAINE_FIELDS_NAV], 10000000);
    write_longer("components", &fields[ROFFELAINE_FIELDS_COMPONENTS], 1000);
    write_longer("code", &last[0], 1000000);
    write_longer("quantity", &last[1], 100000000);
    write_longer("flag", &last[2], 10);
    write_longer("premium", &last[3], 1000000);
    write_longer("discount", &last[4], 1000000);
    write_longer("amount", &last[5], UINT64_C(100000000000));
    return 0;
}
