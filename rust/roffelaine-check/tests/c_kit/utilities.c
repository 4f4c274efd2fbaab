/* Prints what the helpers of roffelaine_util.h give, on the paper's day to compare with. */
#include <inttypes.h>
#include <string.h>

#include "paper_day.h"

static void print_number(const char *name, uint64_t number)
{
    printf("%s %" PRIu64 "\n", name, number);
}

static void print_line(uint64_t code, size_t line)
{
    if (line == ROFFELAINE_NO_LINE)
        printf("line of %06" PRIu64 ": none\n", code);
    else
        printf("line of %06" PRIu64 ": %" PRIu64 "\n", code, (uint64_t)line);
}

/* The refusals, with one number before and one behind them. */
static void print_refusals(void)
{
    uint64_t number;
    for (number = 0; number <= ROFFELAINE_FLAG_TABLE + 1; number++)
        printf("%" PRIu64 "|%s|%s\n", number, roffelaine_reason(number), roffelaine_place_meaning(number));
}

static void print_positions(void)
{
    static const uint8_t lines[] = "ab\r\nc\n\nd";
    const size_t length = sizeof lines - 1;
    uint64_t place;
    size_t line, column;
    for (place = 0; place <= length + 1; place++) {
        roffelaine_position(lines, length, place, &line, &column);
        printf("place %" PRIu64 ": %" PRIu64 ":%" PRIu64 "\n", place, (uint64_t)line, (uint64_t)column);
    }
    roffelaine_position(NULL, 0, UINT64_MAX, &line, &column);
    printf("empty text: %" PRIu64 ":%" PRIu64 "\n", (uint64_t)line, (uint64_t)column);
    roffelaine_position(text, text_length, first_row, &line, &column);
    printf("first component: %" PRIu64 ":%" PRIu64 "\n", (uint64_t)line, (uint64_t)column);
    must(line == ROFFELAINE_HEAD_LINES + 1, "the head has so many lines");
}

static void print_lines(void)
{
    static const uint64_t codes[] = {0, 1, 2, 3, 510299, 510300, 510301, 600000, 600036, 600519, 600520};
    static const uint64_t blank[ROFFELAINE_DAY_WIDTH] = {0};
    size_t k;
    for (k = 0; k < sizeof codes / sizeof codes[0]; k++) {
        const size_t line = roffelaine_line_of(day, ROFFELAINE_DAY_WIDTH, codes[k]);
        print_line(codes[k], line);
        must(line == roffelaine_line_in(component_run, N, 510300, codes[k]), "both give the same line");
    }
    must(roffelaine_line_of(day, ROFFELAINE_DAY_WIDTH - 1, 1) == ROFFELAINE_NO_LINE, "a shorter run is no day");
    must(roffelaine_line_of(NULL, 0, 1) == ROFFELAINE_NO_LINE, "an empty run is no day");
    must(roffelaine_line_of(blank, ROFFELAINE_DAY_WIDTH, 0) == ROFFELAINE_NO_LINE, "a day that is not open has no line");
    must(roffelaine_line_in(NULL, 0, 7, 7) == 0, "the unit stands behind no components");
}

/* Our table, as an opening without one leaves it in the day, and by what each flag says. */
static void print_table(void)
{
    uint64_t table[ROFFELAINE_TABLE_WIDTH], flag;
    static const uint64_t row[ROFFELAINE_FLAG_COLUMNS] = {1, 2, 3, 4, 5, 6, 7};
    int column;
    memset(table, 0xff, sizeof table);
    roffelaine_our_table(table);
    must(memcmp(table, day + ROFFELAINE_DAY_TABLE, sizeof table) == 0, "the day has our table");
    for (flag = 0; flag <= ROFFELAINE_FLAGS; flag++) {
        printf("flag %" PRIu64, flag);
        for (column = 0; column < ROFFELAINE_FLAG_COLUMNS; column++)
            printf(" %d", roffelaine_flag_says(table, flag, (enum roffelaine_flag_column)column));
        printf("\n");
    }
    table[ROFFELAINE_FLAG_COLUMNS * 1 + ROFFELAINE_COLUMN_IN_USE] = 0;
    must(!roffelaine_flag_says(table, 1, ROFFELAINE_COLUMN_STOCK_MOVES), "a flag that is not in use says nothing");
    must(!roffelaine_flag_says(table, UINT64_MAX, ROFFELAINE_COLUMN_IN_USE), "there is no such flag");
    roffelaine_put_flag(table, 9, row);
    print_number("last row starts", table[ROFFELAINE_FLAG_COLUMNS * 9]);
    print_number("last row ends", table[ROFFELAINE_TABLE_WIDTH - 1]);
    print_number("row before ends", table[ROFFELAINE_FLAG_COLUMNS * 9 - 1]);
}

static void print_component(struct roffelaine_component component)
{
    printf(
        "component %" PRIu64 " %" PRIu64 " %" PRIu64 " %" PRIu64 " %" PRIu64 " %" PRIu64 "\n", component.code,
        component.quantity, component.flag, component.premium, component.discount, component.amount);
}

static void print_fields(void)
{
    static const uint64_t counted[] = {1, 2, 3, 4, 5, 6, 7, 8, 9, 10, 11, 12};
    const uint64_t *fund = day + ROFFELAINE_DAY_FUND;
    const uint64_t below[2] = {1, UINT64_MAX}, above[2] = {2, 5};
    must(memcmp(fund, fields + ROFFELAINE_FIELDS_FUND, sizeof fund[0] * ROFFELAINE_FUND_WIDTH) == 0, "the day has the fund");
    must(
        memcmp(day + ROFFELAINE_DAY_COMPONENT_RUN, component_run, sizeof component_run) == 0, "the day has the components");
    print_number("accounts", day[ROFFELAINE_DAY_ACCOUNTS]);
    print_number("components", day[ROFFELAINE_DAY_COMPONENTS]);
    print_number("first code", fund[ROFFELAINE_FUND_FIRST_CODE]);
    print_number("basket size", fund[ROFFELAINE_FUND_BASKET_SIZE]);
    print_number("cash ratio", fund[ROFFELAINE_FUND_CASH_RATIO]);
    print_number("switch", fund[ROFFELAINE_FUND_SWITCH]);
    printf("estimated cash %" PRId64 "\n", roffelaine_signed_at(fund + ROFFELAINE_FUND_ESTIMATED_CASH));
    print_number("first limit", fund[ROFFELAINE_FUND_LIMITS]);
    print_number("Publish", fields[ROFFELAINE_FIELDS_PUBLISH]);
    print_number("TradingDay", fields[ROFFELAINE_FIELDS_TRADING_DAY]);
    print_number("PreTradingDay", fields[ROFFELAINE_FIELDS_PRE_TRADING_DAY]);
    printf("CashComponent %" PRId64 "\n", roffelaine_signed_at(fields + ROFFELAINE_FIELDS_CASH_COMPONENT));
    print_number("NAVperCU", fields[ROFFELAINE_FIELDS_NAV_PER_CU]);
    print_number("NAV", fields[ROFFELAINE_FIELDS_NAV]);
    print_number("Recordnum", fields[ROFFELAINE_FIELDS_COMPONENTS]);
    print_component(roffelaine_component_at(component_run, 0));
    print_component(roffelaine_component_at(counted, 1));
    printf("signed %" PRId64 " %" PRId64 "\n", roffelaine_signed_at(below), roffelaine_signed_at(above));
}

static void print_account(size_t account)
{
    size_t line;
    printf(
        "account %" PRIu64 ": cash %" PRIu64 " created %" PRIu64 " redeemed %" PRIu64 "\n", (uint64_t)account,
        roffelaine_cash_at(book, N, account), roffelaine_created_at(book, N, account), roffelaine_redeemed_at(book, N, account));
    for (line = 0; line <= N; line++) {
        const struct roffelaine_lots lots = roffelaine_lots_at(book, N, account, line);
        printf("%" PRIu64 " %" PRIu64 " %" PRIu64 "\n", lots.old, lots.bought, lots.got);
    }
}

static void print_reports(const char *party, const uint64_t *list, size_t count)
{
    size_t k, group;
    for (k = 0; k < count; k++) {
        const struct roffelaine_report report = roffelaine_report_at(list, k);
        printf("%s %" PRIu64 " %" PRIu64 " %" PRIu64 " %" PRIu64, party, report.type, report.side, report.code, report.quantity);
        for (group = 0; group < ROFFELAINE_MOST_GROUPS; group++)
            printf(" %" PRIu64 " %" PRIu64, report.groups[group].kind, report.groups[group].amount);
        printf("\n");
    }
}

/* A trade, an order of each kind, the value and a price that is refused, as one list. */
static void print_run(void)
{
    enum { ROWS = 5, ORDERS = 2 };
    const struct roffelaine_order_lists second = roffelaine_ample_lists(N, 1);
    uint64_t records[ORDERS * ROFFELAINE_RECORD_WIDTH * ROFFELAINE_MOST_RECORDS(N)];
    uint64_t investor[ORDERS * ROFFELAINE_REPORT_WIDTH * ROFFELAINE_MOST_REPORTS(N)];
    uint64_t fund[ORDERS * ROFFELAINE_REPORT_WIDTH * ROFFELAINE_MOST_REPORTS(N)];
    uint64_t rows[ROFFELAINE_ROW_WIDTH * ROWS], answers[ROFFELAINE_ANSWER_WIDTH * ROWS], place, value;
    struct roffelaine_answer answer;
    size_t k;
    roffelaine_row_create(rows, 0, 1, BASKET, roffelaine_ample_lists(N, 0));
    roffelaine_row_redeem(rows, 1, 1, BASKET, second);
    roffelaine_row_trade(rows, 2, N, 1000, 426, 1, 2);
    roffelaine_row_value(rows, 3);
    roffelaine_row_price(rows, 4, N, 426);
    must(
        roffelaine_run(
            day, ROFFELAINE_DAY_WIDTH, book, ROFFELAINE_BOOK_LENGTH(ACCOUNTS, N), prices, N, rows, ROFFELAINE_ROW_WIDTH * ROWS,
            records, sizeof records / sizeof records[0], investor, sizeof investor / sizeof investor[0],
            fund, sizeof fund / sizeof fund[0], answers, ROFFELAINE_ANSWER_WIDTH * ROWS, &place, &value) == ROFFELAINE_ACCEPTED,
        "the list of calls is made");
    for (k = 0; k < ROWS; k++) {
        answer = roffelaine_answer_at(answers, k);
        printf("answer %" PRIu64 " %" PRIu64 " %" PRIu64 " %" PRIu64 "\n", answer.number, answer.place, answer.value, answer.reports);
    }
    answer = roffelaine_answer_at(answers, 1);
    for (k = 0; k < answer.value; k++) {
        const struct roffelaine_record record = roffelaine_record_at(records + second.records.start, k);
        printf(
            "%" PRIu64 " %c %" PRIu64 " %" PRIu64 " %" PRIu64 "\n", record.code, roffelaine_side_letter(record.side),
            record.quantity, record.price, record.amount);
    }
    print_reports("investor", investor + second.investor.start, (size_t)answer.reports);
    print_reports("fund", fund + second.fund.start, (size_t)answer.reports);
    printf("side %c\n", roffelaine_side_letter(0));
}

/* A row of each kind with arguments that count on; what the run held before stands nowhere. */
static void print_rows(void)
{
    enum { ROWS = 5 };
    static const struct roffelaine_order_lists lists = {{11, 12}, {13, 14}, {15, 16}};
    uint64_t rows[ROFFELAINE_ROW_WIDTH * ROWS];
    size_t k, at;
    memset(rows, 0xff, sizeof rows);
    roffelaine_row_price(rows, 0, 2, 3);
    roffelaine_row_trade(rows, 1, 4, 5, 6, 7, 8);
    roffelaine_row_create(rows, 2, 9, 10, lists);
    roffelaine_row_redeem(rows, 3, 9, 10, lists);
    roffelaine_row_value(rows, 4);
    for (k = 0; k < ROWS; k++) {
        printf("row");
        for (at = 0; at < ROFFELAINE_ROW_WIDTH; at++)
            printf(" %" PRIu64, rows[ROFFELAINE_ROW_WIDTH * k + at]);
        printf("\n");
    }
}

int main(int count, char **words)
{
    must(count == 2, "the list text is named");
    open_paper_day(words[1]);
    print_refusals();
    print_positions();
    print_lines();
    print_table();
    print_fields();
    print_run();
    print_rows();
    print_account(1);
    print_account(2);
    return 0;
}
