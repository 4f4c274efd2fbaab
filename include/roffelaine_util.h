/*
 * Roffelaine: helpers over the calls of `roffelaine.h`, for C99 and C++. They are outside the proof: plain code, held by tests. All
 * are inline, allocate nothing and keep nothing, and none can fail: what each asks of its arguments is said above it.
 */
#ifndef ROFFELAINE_UTIL_H
#define ROFFELAINE_UTIL_H

#include "roffelaine.h"

/* ---- Refusals in words ---- */

/* What is wrong, in words, for the number of a refusal. */
static inline const char *roffelaine_reason(uint64_t number)
{
    switch (number) {
    case ROFFELAINE_ACCEPTED: return "accepted";
    case ROFFELAINE_SIZES:
        return "the count of accounts or components is out of range, or a lent run has another length than they need";
    case ROFFELAINE_FUND_FIELD: return "a field of the fund is out of range";
    case ROFFELAINE_COMPONENT: return "a component is out of range, out of order or uses its flag wrongly";
    case ROFFELAINE_TOTAL: return "a total is too large, or the fund holds units";
    case ROFFELAINE_UNSOUND_DAY: return "the day is not open, or breaks a test";
    case ROFFELAINE_NO_SUCH_LINE: return "there is no such line";
    case ROFFELAINE_QUANTITY_OR_PRICE: return "the quantity or the price is out of range";
    case ROFFELAINE_ACCOUNT: return "there is no such account for this call";
    case ROFFELAINE_SHORT_OF_STOCK: return "short of stock or units";
    case ROFFELAINE_SHORT_OF_CASH: return "short of cash";
    case ROFFELAINE_NOT_WHOLE_BASKETS: return "the units are not 1 to 20 whole baskets";
    case ROFFELAINE_SWITCH: return "the switch CreationRedemption forbids it";
    case ROFFELAINE_LIMIT: return "a limit would be passed";
    case ROFFELAINE_NO_REFERENCE_VALUE: return "there is no reference value";
    case ROFFELAINE_CASH_RATIO: return "more stock is missing than MaxCashRatio allows";
    case ROFFELAINE_LIST_TOO_SHORT: return "the lent list, run or output is too short";
    case ROFFELAINE_FUND_SHORT: return "the fund is short of stock or cash";
    case ROFFELAINE_TEXT_LINE: return "a line of the list does not stand as it must";
    case ROFFELAINE_TEXT_FIELD: return "a field of the list is not written as it must be";
    case ROFFELAINE_RECORD_COUNT: return "Recordnum is not 1 to 300, or not the count of component lines";
    case ROFFELAINE_FLAG_TABLE: return "the flag table breaks its rules";
    default: return "there is no such refusal";
    }
}

/* What the place of a refusal counts; the empty string where its place is always 0. */
static inline const char *roffelaine_place_meaning(uint64_t number)
{
    switch (number) {
    case ROFFELAINE_COMPONENT: return "the component";
    case ROFFELAINE_TOTAL: return "the line, N + 1 for cash";
    case ROFFELAINE_SHORT_OF_STOCK: return "the component, where a creation is short";
    case ROFFELAINE_FUND_SHORT: return "the component, N for cash";
    case ROFFELAINE_TEXT_LINE: return "the line's first byte";
    case ROFFELAINE_TEXT_FIELD: return "the field's first byte";
    case ROFFELAINE_FLAG_TABLE: return "the lowest flag at fault";
    default: return "";
    }
}

/* ---- Places in a text ---- */

/*
 * The line and the column of a byte of a text, as an editor counts them: both from 1, a line ends behind its LF, and a column is a
 * byte. A place past the text, as that of a line that is absent, is taken as the text's end. Not for refusal 3, whose place is a
 * component, which stands in line ROFFELAINE_HEAD_LINES + 1 + place, nor for refusal 21, whose place is a flag.
 */
static inline void roffelaine_position(
    const uint8_t *text, size_t text_length, uint64_t place, size_t *line, size_t *column)
{
    size_t at;
    *line = 1;
    *column = 1;
    for (at = 0; at < text_length && at < place; at++) {
        if (text[at] == '\n') {
            *line += 1;
            *column = 1;
        } else {
            *column += 1;
        }
    }
}

/* Lines of a list text before its first component line: the first line, the fields and TAGTAG. */
#define ROFFELAINE_HEAD_LINES 22

/* ---- Places in runs ---- */

/* Where a part or a number stands in its run. A signed number is two: whether it is below zero, and its size. */
enum roffelaine_place_in_run {
    /* in a day */
    ROFFELAINE_DAY_ACCOUNTS = 0,
    ROFFELAINE_DAY_COMPONENTS = 1, /* their count, N */
    ROFFELAINE_DAY_FUND = 2,
    ROFFELAINE_DAY_TABLE = 16,
    ROFFELAINE_DAY_COMPONENT_RUN = 86,
    /* in a fund */
    ROFFELAINE_FUND_FIRST_CODE = 0,
    ROFFELAINE_FUND_BASKET_SIZE = 1,
    ROFFELAINE_FUND_CASH_RATIO = 2,
    ROFFELAINE_FUND_SWITCH = 3,
    ROFFELAINE_FUND_ESTIMATED_CASH = 4, /* signed */
    ROFFELAINE_FUND_LIMITS = 6,         /* eight, in the list text's order */
    /* in a list's fields */
    ROFFELAINE_FIELDS_FUND = 0,
    ROFFELAINE_FIELDS_PUBLISH = 14,
    ROFFELAINE_FIELDS_TRADING_DAY = 15,
    ROFFELAINE_FIELDS_PRE_TRADING_DAY = 16,
    ROFFELAINE_FIELDS_CASH_COMPONENT = 17, /* signed */
    ROFFELAINE_FIELDS_NAV_PER_CU = 19,
    ROFFELAINE_FIELDS_NAV = 20,
    ROFFELAINE_FIELDS_COMPONENTS = 21 /* their count, N */
};

/* The signed number whose two numbers start there; as in the calls, no more than 10^18 of its size is read. */
static inline int64_t roffelaine_signed_at(const uint64_t *two)
{
    const uint64_t most = UINT64_C(1000000000000000000);
    const int64_t size = (int64_t)(two[1] < most ? two[1] : most);
    return two[0] == 1 ? -size : size;
}

/* ---- The flag table ---- */

/* The columns of a flag's row. */
enum roffelaine_flag_column {
    ROFFELAINE_COLUMN_STOCK_MOVES = 0,
    ROFFELAINE_COLUMN_SHORTAGE_IN_CASH = 1,
    ROFFELAINE_COLUMN_RATE_USED = 2, /* both premium and discount */
    ROFFELAINE_COLUMN_AMOUNT_USED = 3,
    ROFFELAINE_COLUMN_SHANGHAI = 4,
    ROFFELAINE_COLUMN_PRICED = 5,
    ROFFELAINE_COLUMN_IN_USE = 6
};

/* Puts a row of ROFFELAINE_FLAG_COLUMNS numbers into a table, as that of a flag below ROFFELAINE_FLAGS. */
static inline void roffelaine_put_flag(uint64_t *table, size_t flag, const uint64_t *row)
{
    size_t column;
    for (column = 0; column < ROFFELAINE_FLAG_COLUMNS; column++)
        table[ROFFELAINE_FLAG_COLUMNS * flag + column] = row[column];
}

/* Fills a table of ROFFELAINE_TABLE_WIDTH numbers with ours, to change rows of it. */
static inline void roffelaine_our_table(uint64_t *table)
{
    static const uint64_t rows[ROFFELAINE_FLAGS][ROFFELAINE_FLAG_COLUMNS] = {
        {1, 0, 0, 0, 1, 1, 1}, {1, 1, 1, 0, 1, 1, 1}, {0, 0, 0, 1, 1, 0, 1}, {0, 0, 1, 1, 0, 1, 1}, {0, 0, 0, 1, 0, 0, 1},
        {0, 0, 0, 0, 0, 0, 0}, {0, 0, 0, 0, 0, 0, 0}, {0, 0, 0, 0, 0, 0, 0}, {0, 0, 0, 0, 0, 0, 0}, {0, 0, 0, 0, 0, 0, 0}};
    size_t flag;
    for (flag = 0; flag < ROFFELAINE_FLAGS; flag++)
        roffelaine_put_flag(table, flag, rows[flag]);
}

/* Whether a table has a flag in use and 1 in a column of it; 0 for any number that is no flag. */
static inline int roffelaine_flag_says(const uint64_t *table, uint64_t flag, enum roffelaine_flag_column column)
{
    const uint64_t *row;
    if (flag >= ROFFELAINE_FLAGS)
        return 0;
    row = table + ROFFELAINE_FLAG_COLUMNS * flag;
    return row[ROFFELAINE_COLUMN_IN_USE] == 1 && row[column] == 1;
}

/* ---- Components and lines ---- */

/* A component. */
struct roffelaine_component {
    uint64_t code;
    uint64_t quantity;
    uint64_t flag;
    uint64_t premium;  /* of creation */
    uint64_t discount; /* of redemption */
    uint64_t amount;
};

/* Component k of a run that has it. */
static inline struct roffelaine_component roffelaine_component_at(const uint64_t *component_run, size_t k)
{
    const uint64_t *numbers = component_run + ROFFELAINE_COMPONENT_WIDTH * k;
    struct roffelaine_component component;
    component.code = numbers[0];
    component.quantity = numbers[1];
    component.flag = numbers[2];
    component.premium = numbers[3];
    component.discount = numbers[4];
    component.amount = numbers[5];
    return component;
}

/* No line has the code. */
#define ROFFELAINE_NO_LINE ((size_t)-1)

/*
 * The line of a code among so many components, whose codes rise as in every accepted text and opening: the component's; the unit's,
 * which is the count of components, for the fund's first code; ROFFELAINE_NO_LINE for any other.
 */
static inline size_t roffelaine_line_in(
    const uint64_t *component_run, size_t components, uint64_t first_code, uint64_t code)
{
    size_t low = 0;
    size_t high = components;
    while (low < high) {
        const size_t middle = low + (high - low) / 2;
        const uint64_t there = component_run[ROFFELAINE_COMPONENT_WIDTH * middle];
        if (there == code)
            return middle;
        if (there < code)
            low = middle + 1;
        else
            high = middle;
    }
    return code == first_code ? components : ROFFELAINE_NO_LINE;
}

/* The same on a day that an opening filled; ROFFELAINE_NO_LINE for every code where the run is no open day. */
static inline size_t roffelaine_line_of(const uint64_t *day, size_t day_length, uint64_t code)
{
    if (day_length != ROFFELAINE_DAY_WIDTH)
        return ROFFELAINE_NO_LINE;
    if (day[ROFFELAINE_DAY_COMPONENTS] < 1 || day[ROFFELAINE_DAY_COMPONENTS] > ROFFELAINE_MOST_COMPONENTS)
        return ROFFELAINE_NO_LINE;
    return roffelaine_line_in(
        day + ROFFELAINE_DAY_COMPONENT_RUN, (size_t)day[ROFFELAINE_DAY_COMPONENTS],
        day[ROFFELAINE_DAY_FUND + ROFFELAINE_FUND_FIRST_CODE], code);
}

/* ---- What an account has, in the book of a day with so many components; the book has the account, and the day the line ---- */

/* The three lots of a line. */
struct roffelaine_lots {
    uint64_t old;
    uint64_t bought;
    uint64_t got;
};

static inline uint64_t roffelaine_cash_at(const uint64_t *book, size_t components, size_t account)
{
    return book[ROFFELAINE_STRETCH_WIDTH(components) * account];
}

/* Units created today. */
static inline uint64_t roffelaine_created_at(const uint64_t *book, size_t components, size_t account)
{
    return book[ROFFELAINE_STRETCH_WIDTH(components) * account + 1];
}

/* Units redeemed today. */
static inline uint64_t roffelaine_redeemed_at(const uint64_t *book, size_t components, size_t account)
{
    return book[ROFFELAINE_STRETCH_WIDTH(components) * account + 2];
}

static inline struct roffelaine_lots roffelaine_lots_at(
    const uint64_t *book, size_t components, size_t account, size_t line)
{
    const uint64_t *numbers = book + ROFFELAINE_STRETCH_WIDTH(components) * account + 3 + 3 * line;
    struct roffelaine_lots lots;
    lots.old = numbers[0];
    lots.bought = numbers[1];
    lots.got = numbers[2];
    return lots;
}

/* ---- Records ---- */

/* A record. */
struct roffelaine_record {
    uint64_t code;
    uint64_t side; /* enum roffelaine_side */
    uint64_t quantity;
    uint64_t price;
    uint64_t amount;
};

/* Record k of a list that has it. */
static inline struct roffelaine_record roffelaine_record_at(const uint64_t *list, size_t k)
{
    const uint64_t *numbers = list + ROFFELAINE_RECORD_WIDTH * k;
    struct roffelaine_record record;
    record.code = numbers[0];
    record.side = numbers[1];
    record.quantity = numbers[2];
    record.price = numbers[3];
    record.amount = numbers[4];
    return record;
}

/* The letter of a side, as documents print it. */
static inline char roffelaine_side_letter(uint64_t side)
{
    return side == ROFFELAINE_SIDE_B ? 'B' : side == ROFFELAINE_SIDE_S ? 'S' : '?';
}

/* ---- Reports ---- */

/* The most groups of a report. */
#define ROFFELAINE_MOST_GROUPS 3

/* A group of a report; both are 0 where there is none. */
struct roffelaine_group {
    uint64_t kind; /* enum roffelaine_cash_kind */
    uint64_t amount;
};

/* A report. */
struct roffelaine_report {
    uint64_t type; /* enum roffelaine_report_type */
    uint64_t side; /* enum roffelaine_side */
    uint64_t code;
    uint64_t quantity;
    struct roffelaine_group groups[ROFFELAINE_MOST_GROUPS];
};

/* Report k of a list that has it. */
static inline struct roffelaine_report roffelaine_report_at(const uint64_t *list, size_t k)
{
    const uint64_t *numbers = list + ROFFELAINE_REPORT_WIDTH * k;
    struct roffelaine_report report;
    size_t group;
    report.type = numbers[0];
    report.side = numbers[1];
    report.code = numbers[2];
    report.quantity = numbers[3];
    for (group = 0; group < ROFFELAINE_MOST_GROUPS; group++) {
        report.groups[group].kind = numbers[4 + 2 * group];
        report.groups[group].amount = numbers[4 + 2 * group + 1];
    }
    return report;
}

/* ---- The rows of `roffelaine_run`, each put at row k of a run that has it, and its answers ---- */

/* A row of a kind with so many arguments, and 0 behind them. */
static inline void roffelaine_put_row(
    uint64_t *rows, size_t k, uint64_t kind, const uint64_t *arguments, size_t count)
{
    uint64_t *row = rows + ROFFELAINE_ROW_WIDTH * k;
    size_t at;
    row[0] = kind;
    for (at = 1; at < ROFFELAINE_ROW_WIDTH; at++)
        row[at] = at <= count ? arguments[at - 1] : 0;
}

static inline void roffelaine_row_price(uint64_t *rows, size_t k, size_t line, uint64_t price)
{
    const uint64_t arguments[] = {line, price};
    roffelaine_put_row(rows, k, ROFFELAINE_CALL_PRICE, arguments, 2);
}

static inline void roffelaine_row_trade(
    uint64_t *rows, size_t k, size_t line, uint64_t quantity, uint64_t price, size_t seller, size_t buyer)
{
    const uint64_t arguments[] = {line, quantity, price, seller, buyer};
    roffelaine_put_row(rows, k, ROFFELAINE_CALL_TRADE, arguments, 5);
}

/* A part of a run: it starts at number `start` and has `length` numbers. */
struct roffelaine_span {
    size_t start;
    size_t length;
};

/* The lists of an order: its parts of the record run, of the investor's reports and of the fund's. */
struct roffelaine_order_lists {
    struct roffelaine_span records;
    struct roffelaine_span investor;
    struct roffelaine_span fund;
};

/* The lists of the k-th of orders whose lists follow each other in the runs, with room for any order on so many components. */
static inline struct roffelaine_order_lists roffelaine_ample_lists(size_t components, size_t k)
{
    struct roffelaine_order_lists lists;
    lists.records.length = ROFFELAINE_RECORD_WIDTH * ROFFELAINE_MOST_RECORDS(components);
    lists.investor.length = ROFFELAINE_REPORT_WIDTH * ROFFELAINE_MOST_REPORTS(components);
    lists.fund.length = lists.investor.length;
    lists.records.start = k * lists.records.length;
    lists.investor.start = k * lists.investor.length;
    lists.fund.start = k * lists.fund.length;
    return lists;
}

/* An order's row, of kind ROFFELAINE_CALL_CREATE or ROFFELAINE_CALL_REDEEM. */
static inline void roffelaine_put_order_row(
    uint64_t *rows, size_t k, uint64_t kind, size_t account, uint64_t units, struct roffelaine_order_lists lists)
{
    const uint64_t arguments[] = {
        account, units, lists.records.start, lists.records.length, lists.investor.start, lists.investor.length,
        lists.fund.start, lists.fund.length};
    roffelaine_put_row(rows, k, kind, arguments, 8);
}

static inline void roffelaine_row_create(
    uint64_t *rows, size_t k, size_t account, uint64_t units, struct roffelaine_order_lists lists)
{
    roffelaine_put_order_row(rows, k, ROFFELAINE_CALL_CREATE, account, units, lists);
}

static inline void roffelaine_row_redeem(
    uint64_t *rows, size_t k, size_t account, uint64_t units, struct roffelaine_order_lists lists)
{
    roffelaine_put_order_row(rows, k, ROFFELAINE_CALL_REDEEM, account, units, lists);
}

static inline void roffelaine_row_value(uint64_t *rows, size_t k)
{
    roffelaine_put_row(rows, k, ROFFELAINE_CALL_VALUE, NULL, 0);
}

/* An answer. */
struct roffelaine_answer {
    uint64_t number; /* enum roffelaine_refusal */
    uint64_t place;
    uint64_t value;
    uint64_t reports; /* the count of an order's, to each party */
};

/* Answer k of a run that has it. */
static inline struct roffelaine_answer roffelaine_answer_at(const uint64_t *answers, size_t k)
{
    const uint64_t *numbers = answers + ROFFELAINE_ANSWER_WIDTH * k;
    struct roffelaine_answer answer;
    answer.number = numbers[0];
    answer.place = numbers[1];
    answer.value = numbers[2];
    answer.reports = numbers[3];
    return answer;
}

#endif
