/*
 * A day of one fund from C (or C++). The fund's list is read from its text, the day is opened with two accounts, prices are set,
 * and account 1 creates one basket: first the tests of the creation are made alone, which say how many records it will make and
 * change nothing, then its records are printed, and its reports to the investor and to the fund's manager. Account 1 may not redeem
 * that basket on the same day: the refusal is printed with its reason. Then the same calls are made as one list. A damaged list
 * text is refused, with line and column. Last the manager pilots a flag of the customer's own: a list with flag 5 is refused under our
 * flag table, and read, opened and created under one that has flag 5 in use.
 *
 *     cc -std=c99 day.c $(pkg-config --cflags --libs roffelaine) -o day
 */
#include <inttypes.h>
#include <stdio.h>
#include <string.h>

#include "roffelaine.h"
#include "roffelaine_util.h"

/* The lines of a list end in CR and LF. */
static const char LIST[] =
    "[ETF510300]\r\n"
    "Fundid1=510301\r\n"
    "CreationRedemptionUnit=1000000\r\n"
    "MaxCashRatio=0.05000\r\n"
    "Publish=1\r\n"
    "CreationRedemption=1\r\n"
    "Recordnum=5\r\n"
    "EstimateCashComponent=-331.22\r\n"
    "TradingDay=20250630\r\n"
    "PreTradingDay=20250627\r\n"
    "CashComponent=-329.58\r\n"
    "NAVperCU=425668.78\r\n"
    "NAV=0.4257\r\n"
    "CreationLimit=0\r\n"
    "RedemptionLimit=0\r\n"
    "CreationLimitPerUser=0\r\n"
    "RedemptionLimitPerUser=0\r\n"
    "NetCreationLimit=0\r\n"
    "NetRedemptionLimit=0\r\n"
    "NetCreationLimitPerUser=0\r\n"
    "NetRedemptionLimitPerUser=0\r\n"
    "TAGTAG\r\n"
    "000001|PAB     |    8000|3|0.10000|0.10000|   96000.000|\r\n"
    "000002|VANKE   |    1000|4|       |       |    8000.000|\r\n"
    "600000|SPDB    |    5200|1|0.10000|0.10000|            |\r\n"
    "600036|CMB     |    3000|0|       |       |            |\r\n"
    "600519|MOUTAI  |     100|2|       |       |  150000.000|\r\n"
    "ENDENDEND\r\n";

/* Account 0 is the fund, account 1 creates and redeems. */
enum { ACCOUNTS = 2, HOLDER = 1 };

/* Ample stock, and ample cash in thousandths of a yuan. */
static const uint64_t AMPLE = UINT64_C(1000000000000);

/* The runs that the calls of a day are lent, with room for the longest list. Only the numbers of N components are lent. */
static size_t components; /* N */
static uint64_t table[ROFFELAINE_TABLE_WIDTH];
static size_t table_length; /* 0 while no flag table is given */
static uint64_t fields[ROFFELAINE_FIELDS_WIDTH];
static uint64_t component_run[ROFFELAINE_COMPONENT_WIDTH * ROFFELAINE_MOST_COMPONENTS];
static uint64_t day[ROFFELAINE_DAY_WIDTH];
static uint64_t book[ROFFELAINE_BOOK_LENGTH(ACCOUNTS, ROFFELAINE_MOST_COMPONENTS)];
static uint64_t prices[ROFFELAINE_MOST_COMPONENTS];
static uint64_t records[ROFFELAINE_RECORD_WIDTH * ROFFELAINE_MOST_RECORDS(ROFFELAINE_MOST_COMPONENTS)];
static uint64_t investor[ROFFELAINE_REPORT_WIDTH * ROFFELAINE_MOST_REPORTS(ROFFELAINE_MOST_COMPONENTS)];
static uint64_t fund[ROFFELAINE_REPORT_WIDTH * ROFFELAINE_MOST_REPORTS(ROFFELAINE_MOST_COMPONENTS)];

/* The prices of the day, in thousandths of a yuan. */
static const struct {
    uint64_t code;
    uint64_t price;
} PRICED[] = {{1, 12000}, {600000, 10000}, {600036, 40000}};
enum { PRICED_COUNT = sizeof PRICED / sizeof PRICED[0] };

/* Prints the answer of a call; true where it was accepted. */
static int said(const char *call, uint64_t number, uint64_t place, uint64_t value)
{
    if (number == ROFFELAINE_ACCEPTED)
        printf("%s ok %" PRIu64 "\n", call, value);
    else
        printf("%s refused %" PRIu64 " %" PRIu64 ": %s\n", call, number, place, roffelaine_reason(number));
    return number == ROFFELAINE_ACCEPTED;
}

/* Reads a list text to `fields` and `component_run`; where it is refused, says why and where. */
static int read_list(const char *text)
{
    const uint8_t *bytes = (const uint8_t *)text;
    size_t line, column;
    uint64_t first_row, place, value;
    const uint64_t number = roffelaine_read(
        bytes, strlen(text), table, table_length,
        component_run, ROFFELAINE_COMPONENT_WIDTH * ROFFELAINE_MOST_COMPONENTS, fields, ROFFELAINE_FIELDS_WIDTH, &first_row, &place, &value);
    if (number == ROFFELAINE_TEXT_LINE || number == ROFFELAINE_TEXT_FIELD) {
        roffelaine_position(bytes, strlen(text), place, &line, &column);
        printf("line %lu, column %lu: %s\n", (unsigned long)line, (unsigned long)column, roffelaine_reason(number));
        return 0;
    }
    if (number != ROFFELAINE_ACCEPTED)
        return said("read", number, place, value);
    components = (size_t)value;
    return 1;
}

/* Puts a quantity of a code into an account's holdings: cash first, then each line. A code that the list has not is left out. */
static void hold(uint64_t *of_account, uint64_t code, uint64_t quantity)
{
    const uint64_t first_code = fields[ROFFELAINE_FUND_FIRST_CODE];
    const size_t line = roffelaine_line_in(component_run, components, first_code, code);
    if (line != ROFFELAINE_NO_LINE)
        of_account[1 + line] = quantity;
}

/* Opens the day of the list that was read: the fund has ample cash and stock, account 1 ample cash and some stock. */
static int open_day(void)
{
    static uint64_t holdings[ROFFELAINE_HOLDINGS_LENGTH(ACCOUNTS, ROFFELAINE_MOST_COMPONENTS)];
    uint64_t *of_fund = holdings, *of_holder = holdings + (components + 2);
    uint64_t number, place, value;
    size_t line;
    memset(holdings, 0, sizeof holdings);
    of_fund[0] = AMPLE;
    for (line = 0; line < components; line++)
        of_fund[1 + line] = AMPLE;
    of_holder[0] = AMPLE;
    hold(of_holder, 600000, 3072);
    hold(of_holder, 600036, 3000);
    /* the fund stands at the front of the fields */
    number = roffelaine_open(
        ACCOUNTS, components, fields, ROFFELAINE_FUND_WIDTH, table, table_length,
        component_run, ROFFELAINE_COMPONENT_WIDTH * components,
        holdings, ROFFELAINE_HOLDINGS_LENGTH(ACCOUNTS, components),
        book, ROFFELAINE_BOOK_LENGTH(ACCOUNTS, components), prices, components, day, ROFFELAINE_DAY_WIDTH,
        &place, &value);
    return number == ROFFELAINE_ACCEPTED || said("open", number, place, value);
}

/* Money in yuan, with its three decimals. */
static void print_money(uint64_t money)
{
    printf(" %" PRIu64 ".%03" PRIu64, money / 1000, money % 1000);
}

static void print_records(size_t count)
{
    size_t k;
    for (k = 0; k < count; k++) {
        const struct roffelaine_record record = roffelaine_record_at(records, k);
        printf("%06" PRIu64 " %c %" PRIu64, record.code, roffelaine_side_letter(record.side), record.quantity);
        print_money(record.price);
        print_money(record.amount);
        printf("\n");
    }
}

/* The reports to one party: type, side, code, quantity, then kind and amount of each group that is there. */
static void print_reports(const char *party, const uint64_t *list, size_t count)
{
    size_t k, group;
    for (k = 0; k < count; k++) {
        const struct roffelaine_report report = roffelaine_report_at(list, k);
        printf("%s %" PRIu64 " %" PRIu64 " %06" PRIu64 " %" PRIu64, party, report.type, report.side, report.code, report.quantity);
        for (group = 0; group < ROFFELAINE_MOST_GROUPS && report.groups[group].kind != 0; group++) {
            printf(" %" PRIu64, report.groups[group].kind);
            print_money(report.groups[group].amount);
        }
        printf("\n");
    }
}

/* What an accepted order made. */
static void print_order(size_t record_count, size_t report_count)
{
    print_records(record_count);
    print_reports("investor", investor, report_count);
    print_reports("fund", fund, report_count);
}

/* The calls one by one; each tests the whole day. */
static int call_by_call(uint64_t units)
{
    const size_t book_length = ROFFELAINE_BOOK_LENGTH(ACCOUNTS, components);
    const struct roffelaine_order_lists lists = roffelaine_ample_lists(components, 0);
    uint64_t number, place, value, reports;
    size_t k;
    for (k = 0; k < PRICED_COUNT; k++) {
        const size_t line = roffelaine_line_of(day, ROFFELAINE_DAY_WIDTH, PRICED[k].code);
        number = roffelaine_price(
            day, ROFFELAINE_DAY_WIDTH, book, book_length, prices, components, line, PRICED[k].price, &place, &value);
        if (number != ROFFELAINE_ACCEPTED)
            return said("price", number, place, value);
    }
    number = roffelaine_creation_test(
        day, ROFFELAINE_DAY_WIDTH, book, book_length, prices, components, HOLDER, units, lists.records.length,
        lists.investor.length, lists.fund.length, &place, &value, &reports);
    if (!said("test create", number, place, value))
        return 0;
    number = roffelaine_create(
        day, ROFFELAINE_DAY_WIDTH, book, book_length, prices, components, HOLDER, units, records, lists.records.length,
        investor, lists.investor.length, fund, lists.fund.length, &place, &value, &reports);
    if (number != ROFFELAINE_ACCEPTED)
        return said("create", number, place, value);
    print_order((size_t)value, (size_t)reports);
    number = roffelaine_redeem(
        day, ROFFELAINE_DAY_WIDTH, book, book_length, prices, components, HOLDER, units, records, lists.records.length,
        investor, lists.investor.length, fund, lists.fund.length, &place, &value, &reports);
    said("redeem", number, place, value);
    return 1;
}

/* The same calls, and the reference value, as one list: the day is tested once. */
static int as_one_list(uint64_t units)
{
    enum { ROWS = PRICED_COUNT + 3, CREATION = PRICED_COUNT + 1 };
    static const char *const names[ROWS] = {"price", "price", "price", "value", "create", "redeem"};
    /* lists of no numbers: the last order is not expected to make records and reports */
    static const struct roffelaine_order_lists no_lists = {{0, 0}, {0, 0}, {0, 0}};
    const struct roffelaine_order_lists lists = roffelaine_ample_lists(components, 0);
    uint64_t rows[ROFFELAINE_ROW_WIDTH * ROWS], answers[ROFFELAINE_ANSWER_WIDTH * ROWS];
    uint64_t number, place, value;
    struct roffelaine_answer answer;
    size_t k;
    for (k = 0; k < PRICED_COUNT; k++)
        roffelaine_row_price(rows, k, roffelaine_line_of(day, ROFFELAINE_DAY_WIDTH, PRICED[k].code), PRICED[k].price);
    roffelaine_row_value(rows, PRICED_COUNT);
    roffelaine_row_create(rows, CREATION, HOLDER, units, lists);
    roffelaine_row_redeem(rows, CREATION + 1, HOLDER, units, no_lists);
    number = roffelaine_run(
        day, ROFFELAINE_DAY_WIDTH, book, ROFFELAINE_BOOK_LENGTH(ACCOUNTS, components), prices, components,
        rows, ROFFELAINE_ROW_WIDTH * ROWS, records, lists.records.length, investor, lists.investor.length,
        fund, lists.fund.length, answers, ROFFELAINE_ANSWER_WIDTH * ROWS, &place, &value);
    if (number != ROFFELAINE_ACCEPTED)
        return said("run", number, place, value);
    for (k = 0; k < ROWS; k++) {
        answer = roffelaine_answer_at(answers, k);
        said(names[k], answer.number, answer.place, answer.value);
    }
    answer = roffelaine_answer_at(answers, CREATION);
    print_order((size_t)answer.value, (size_t)answer.reports);
    return 1;
}

/* What account 1 has of the unit: all of it got today, so that it may be sold today and not redeemed. */
static void print_units(void)
{
    const struct roffelaine_lots units = roffelaine_lots_at(book, components, HOLDER, components);
    printf("units old %" PRIu64 " bought %" PRIu64 " got %" PRIu64 "\n", units.old, units.bought, units.got);
}

/* Flag 5 is piloted: cash stands in for 600036, an amount with the premium; it is Shanghai cash, and the component is priced. */
static int with_a_table(uint64_t units)
{
    static const char line[] = "|5|0.10000|0.10000|  120000.000|";
    static const uint64_t flag_5[ROFFELAINE_FLAG_COLUMNS] = {0, 0, 1, 1, 1, 1, 1};
    static char piloted[sizeof LIST];
    memcpy(piloted, LIST, sizeof LIST);
    memcpy(strstr(piloted, "|0|"), line, sizeof line - 1);
    read_list(piloted);
    roffelaine_our_table(table);
    roffelaine_put_flag(table, 5, flag_5);
    table_length = ROFFELAINE_TABLE_WIDTH;
    return read_list(piloted) && open_day() && call_by_call(units);
}

int main(void)
{
    static char damaged[sizeof LIST];
    uint64_t basket;
    if (!read_list(LIST))
        return 1;
    basket = fields[ROFFELAINE_FUND_BASKET_SIZE];
    if (!open_day() || !call_by_call(basket))
        return 1;
    print_units();
    if (!open_day() || !as_one_list(basket))
        return 1;
    memcpy(damaged, LIST, sizeof LIST);
    *strchr(damaged, '.') = ',';
    read_list(damaged);
    return with_a_table(basket) ? 0 : 1;
}
