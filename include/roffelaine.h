/*
 * Roffelaine, an ETF day book: the calls of the library libroffelaine, for C and C++ on x86-64 Linux. `make install` installs it;
 * its archive is libc_interface.a, which `rt lib` in crates/c_interface proves and writes. `roffelaine_util.h` has small helpers
 * over the calls, and `examples/day.c` is a whole program.
 *
 * Every call takes numbers and lent runs of numbers and returns on every input. All but `roffelaine_name` and `roffelaine_letters`,
 * which refuse nothing, answer three numbers, an order and the tests of one alone four: such a call returns the refusal's number,
 * ROFFELAINE_ACCEPTED where there is none, puts the refusal's place at `place` (0 where it has none), the value of an accepted call
 * at `value` (0 where it has none) and the count of an accepted order's reports to each party at `reports` (0 where it is refused).
 * A refused call changes nothing lent but these. What each call answers and leaves is proved, for the same call of the Rattle
 * crates `day`, `driver`, `list_reading` and `list_writing` on the day and the fields that the runs say.
 *
 * A run is a pointer and a count of its numbers (of its bytes for text). The caller sees to it that the pointer points to so many
 * numbers, and that a run lent for writing, `place`, `value`, `reports` and `first_row` overlap no other argument. A run with a
 * count of 0 may have any pointer, also null, as an empty `std::vector` gives: nothing is read or written through it, and it
 * overlaps nothing. `place`, `value`, `reports` and `first_row` must not be null.
 *
 * The proof is about runs, not about pointers: that a call reaches no number of a run that is not there is proved, that the pointer
 * of an empty run may be null is not. That rests on how the library is compiled, with no pointer declared to the compiler as not
 * null, and on a test that passes null for every empty run of every call.
 *
 * No call keeps a pointer, allocates, or writes anywhere else, so calls on different runs may go at once. A call takes less than
 * 128 KB of stack (measured, not proved).
 *
 * What a call costs: every call of an open day first tests the whole day (refusal 5), in one pass over the whole book, and that is
 * most of its time, whatever the call does. With 64 accounts and 300 components it is about 10 microseconds. `roffelaine_run` makes
 * this pass once for a whole list of calls: a trade in the list then takes about 0.01 microseconds, a creation with 300 components
 * about 3, with its reports to both parties. So a program that has many calls at hand gives them to `roffelaine_run`; one that needs
 * an answer before it can make the next call makes single calls, which answer and leave the same. An opening makes a pass over the
 * holdings, about 17 microseconds; the calls on list texts make none, and take about 12 microseconds to read 300 components and 10 to
 * write them. All times are measured on one machine.
 *
 * Money counts thousandths of a yuan, a rate hundred-thousandths, a reference value ten-thousandths of a yuan, estimated cash and a
 * cash component hundredths of a yuan. Accounts, lines, components and places count from 0. Account 0 is the fund, and line N,
 * behind the N components, is the unit.
 *
 * A signed number is two: 1 where it is below zero (any other number: not below), and its size, of which no more than 10^18 is
 * read.
 *
 * A fund, 14 numbers:
 *    0 first code   1 basket size   2 maximum cash ratio   3 switch   4, 5 estimated cash, signed
 *    6 to 13 the limits in the list text's order, creation and redemption by turns: cumulative for the fund, cumulative per
 *    account, net for the fund, net per account; 0 is no limit
 * A component, 6 numbers: code, quantity, flag, premium, discount, amount; a run of components has 6 for each. Its flag is 0 to 9 and
 * in use by the flag table. Premium and discount are rates: creation takes the premium, redemption the discount. What the flag does
 * not use by the table, the two rates or the amount, is 0. The discount of a flag that moves stock enters no sum, since its redemption
 * delivers the stock.
 * A flag table, 70 numbers: for each of the flags 0 to 9, one after another, a row of seven, which are 1 for yes and 0 for no:
 *    0 stock moves   1 shortage in cash   2 rates used   3 amount used   4 Shanghai   5 priced   6 in use
 *    All numbers are 0 or 1. A flag in use either moves stock, is Shanghai, is priced and uses no amount, or moves none and uses an
 *    amount; a shortage is in cash only where stock moves, and then the rates are used. A row that is not in use says nothing, and has
 *    no rule but 0 or 1. ROFFELAINE_FLAG_TABLE refuses a table that breaks these rules, with the lowest flag whose row does.
 *    An opening, a reading and a writing take a table in a run of 70 numbers, or none in a run of 0 numbers. Where none is given it is
 *    ours, with the flags 0 to 4 in use: 0 1000111, 1 1110111, 2 0001101, 3 0011011, 4 0001001, and the rows 5 to 9 all 0. A day
 *    that was opened without a table is the same as one opened with ours.
 * A day, 1,886 numbers, filled by an accepted opening and lent to every later call of the day:
 *    0 accounts   1 components, N   2 to 15 the fund   16 to 85 the flag table   86 on 300 components, those behind the N-th all 0
 *    A run of another length, or of other numbers than an opening leaves, is a day too: the calls then answer
 *    ROFFELAINE_UNSOUND_DAY where it breaks a test.
 * The book, 3 + 3 (N + 1) numbers for each account: cash, units created today, units redeemed today, and for each line, the unit
 * last, three lots: old, bought, got.
 * The prices, N numbers; 0 is no price.
 * The holdings that an opening takes, N + 2 numbers for each account: cash, and the holding of each line, the unit last.
 * A record, 5 numbers: code, side, quantity, price, amount.
 * A report, 10 numbers: type, side, code, quantity, and three groups of kind and amount. An accepted order makes as many to the
 * investor as to the fund's manager, in this order: type 1 for the unit (the fund's first code, and the units), type 2 for each
 * component of which stock moved (its code and quantity, as in its record), type 3 for all cash, none where there is none. Types 1
 * and 2 use code and quantity, type 3 the groups: kind 1, cash for Shanghai components, then kind 2, other cash; a kind without cash
 * is left out and the next moves up. What a type does not use is 0, and the third group is 0 for now. A creation has the investor on
 * side 1 for types 1 and 3 and on side 2 for type 2, a redemption turns each, and the fund has the opposite side of each. The
 * amounts of all groups of a party's reports add up to the amounts of the order's records.
 * A list's fields, 22 numbers:
 *    0 to 13 the fund   14 Publish   15 TradingDay   16 PreTradingDay, dates as year, month and day in eight digits
 *    17, 18 CashComponent, signed   19 NAVperCU, in hundredths   20 NAV, in ten-thousandths   21 N
 * A list text is bytes. Its names are 8 bytes each, as they stand in the component lines, and its letters the 1 to 8 letters or
 * digits behind "[ETF" in its first line.
 * A part of a text, 2 numbers: the place of its first byte, and its length; both are 0 where the text has no such part.
 */
#ifndef ROFFELAINE_H
#define ROFFELAINE_H

#include <stddef.h>
#include <stdint.h>

#ifdef __cplusplus
extern "C" {
#endif

/* The version of this header and of the library that it came with. */
#define ROFFELAINE_VERSION "0.6.0"
#define ROFFELAINE_VERSION_MAJOR 0 /* with the next one, part of the shared library's name */
#define ROFFELAINE_VERSION_MINOR 6 /* raised with each change request: calls, names or widths may change */
#define ROFFELAINE_VERSION_PATCH 0 /* raised in between: none does */

/* How many numbers each takes. */
#define ROFFELAINE_FUND_WIDTH 14
#define ROFFELAINE_TABLE_WIDTH 70
#define ROFFELAINE_DAY_WIDTH 1886
#define ROFFELAINE_FIELDS_WIDTH 22
#define ROFFELAINE_COMPONENT_WIDTH 6
#define ROFFELAINE_RECORD_WIDTH 5
#define ROFFELAINE_REPORT_WIDTH 10
#define ROFFELAINE_ROW_WIDTH 9
#define ROFFELAINE_ANSWER_WIDTH 4
#define ROFFELAINE_PART_WIDTH 2

#define ROFFELAINE_MOST_ACCOUNTS 64
#define ROFFELAINE_MOST_COMPONENTS 300

/* The rows and the columns of a flag table. */
#define ROFFELAINE_FLAGS 10
#define ROFFELAINE_FLAG_COLUMNS 7

#define ROFFELAINE_STRETCH_WIDTH(components) (3 + 3 * ((size_t)(components) + 1))
#define ROFFELAINE_BOOK_LENGTH(accounts, components) ((size_t)(accounts) * ROFFELAINE_STRETCH_WIDTH(components))
#define ROFFELAINE_HOLDINGS_LENGTH(accounts, components) ((size_t)(accounts) * ((size_t)(components) + 2))

/* An order makes at most 1 + N + 4 + 1 records, and at most 1 + N + 1 reports to each party. */
#define ROFFELAINE_MOST_RECORDS(components) ((size_t)(components) + 6)
#define ROFFELAINE_MOST_REPORTS(components) ((size_t)(components) + 2)

/* Bytes of a name. */
#define ROFFELAINE_NAME_WIDTH 8

/*
 * Bytes of the longest list text: no text that `roffelaine_read` accepts and none that `roffelaine_write` makes has more, so an
 * output of so many bytes is never refused with 16. It is the text with 8 letters in its first line, the longest value in every
 * field and 300 components: 15 for the first line, 535 for the 20 fields, 8 for TAGTAG, 300 times 58 for the component lines and 11
 * for ENDENDEND, with the two bytes that end each line. It follows from the paper's ranges and is held by a test; it is not proved.
 */
#define ROFFELAINE_LONGEST_TEXT 17969 /* bytes */

/* The refusals. Where a place is said, it is the component, line, field, byte or flag that the call names. */
enum roffelaine_refusal {
    ROFFELAINE_ACCEPTED = 0,
    ROFFELAINE_SIZES = 1,              /* accounts, components or a lent length */
    ROFFELAINE_FUND_FIELD = 2,         /* a fund field out of range */
    ROFFELAINE_COMPONENT = 3,          /* a component out of range, order or flag use; place: the component */
    ROFFELAINE_TOTAL = 4,              /* totals of an opening; place: the line, N + 1 for cash */
    ROFFELAINE_UNSOUND_DAY = 5,        /* the day breaks a test */
    ROFFELAINE_NO_SUCH_LINE = 6,
    ROFFELAINE_QUANTITY_OR_PRICE = 7,
    ROFFELAINE_ACCOUNT = 8,
    ROFFELAINE_SHORT_OF_STOCK = 9,     /* place: the component, of a creation */
    ROFFELAINE_SHORT_OF_CASH = 10,
    ROFFELAINE_NOT_WHOLE_BASKETS = 11,
    ROFFELAINE_SWITCH = 12,
    ROFFELAINE_LIMIT = 13,
    ROFFELAINE_NO_REFERENCE_VALUE = 14,
    ROFFELAINE_CASH_RATIO = 15,
    ROFFELAINE_LIST_TOO_SHORT = 16,    /* a lent list of records or reports, component run or output */
    ROFFELAINE_FUND_SHORT = 17,        /* place: the component, N for cash */
    ROFFELAINE_TEXT_LINE = 18,         /* place: the line's first byte */
    ROFFELAINE_TEXT_FIELD = 19,        /* place: the field's first byte */
    ROFFELAINE_RECORD_COUNT = 20,
    ROFFELAINE_FLAG_TABLE = 21         /* the flag table breaks its rules; place: the lowest flag at fault */
};

/* The sides of a record and of a report. */
enum roffelaine_side { ROFFELAINE_SIDE_B = 1, ROFFELAINE_SIDE_S = 2 };

/* The types of a report. */
enum roffelaine_report_type {
    ROFFELAINE_REPORT_UNIT = 1,
    ROFFELAINE_REPORT_STOCK = 2, /* a component of which stock moved */
    ROFFELAINE_REPORT_CASH = 3   /* all cash of the order */
};

/* The kinds of cash in a report's groups. */
enum roffelaine_cash_kind {
    ROFFELAINE_CASH_SHANGHAI = 1, /* for Shanghai components */
    ROFFELAINE_CASH_OTHER = 2
};

/*
 * What a row of `roffelaine_run` names. The parts of an order are six numbers: start and length of its part of the record run, of the
 * run of the investor's reports and of the run of the fund's.
 */
enum roffelaine_call {
    ROFFELAINE_CALL_PRICE = 1,  /* line, price */
    ROFFELAINE_CALL_TRADE = 2,  /* line, quantity, price, seller, buyer */
    ROFFELAINE_CALL_CREATE = 3, /* account, units, parts */
    ROFFELAINE_CALL_REDEEM = 4, /* account, units, parts */
    ROFFELAINE_CALL_VALUE = 5
};

/*
 * Opens a day with so many accounts and components. Takes the fund, a flag table or none, the components and the holdings; fills the
 * book, the prices and the day. Refusals: 1, also for a fund, table or day of another width, 21, 2, 3 and 4.
 */
uint64_t roffelaine_open(
    size_t accounts, size_t components,
    const uint64_t *fund, size_t fund_length,
    const uint64_t *table, size_t table_length,
    const uint64_t *component_run, size_t component_run_length,
    const uint64_t *holdings, size_t holdings_length,
    uint64_t *book, size_t book_length,
    uint64_t *prices, size_t prices_length,
    uint64_t *day, size_t day_length,
    uint64_t *place, uint64_t *value);

/* Sets the price of the component at a line. Refusals: 5, 6, 7. */
uint64_t roffelaine_price(
    const uint64_t *day, size_t day_length,
    const uint64_t *book, size_t book_length,
    uint64_t *prices, size_t prices_length,
    size_t line, uint64_t price,
    uint64_t *place, uint64_t *value);

/* Trades a quantity of a line at a price. Refusals: 5 to 10. */
uint64_t roffelaine_trade(
    const uint64_t *day, size_t day_length,
    uint64_t *book, size_t book_length,
    const uint64_t *prices, size_t prices_length,
    size_t line, uint64_t quantity, uint64_t price, size_t seller, size_t buyer,
    uint64_t *place, uint64_t *value);

/* The reference value at this moment, at `value`. Refusals: 5, 14. */
uint64_t roffelaine_reference_value(
    const uint64_t *day, size_t day_length,
    const uint64_t *book, size_t book_length,
    const uint64_t *prices, size_t prices_length,
    uint64_t *place, uint64_t *value);

/*
 * Creates units for an account. The records go to the front of `records`, their count to `value`; the reports to the investor go to
 * the front of `investor`, those to the fund's manager to the front of `fund`, the count of each to `reports`; what is past the last
 * stays. Refusals: 5, 8, 11, 12, 13, 9, 14, 15, 10, and 16 where any of the three lists is too short.
 */
uint64_t roffelaine_create(
    const uint64_t *day, size_t day_length,
    uint64_t *book, size_t book_length,
    const uint64_t *prices, size_t prices_length,
    size_t account, uint64_t units,
    uint64_t *records, size_t records_length,
    uint64_t *investor, size_t investor_length,
    uint64_t *fund, size_t fund_length,
    uint64_t *place, uint64_t *value, uint64_t *reports);

/* Redeems units of an account; records and reports as with a creation. Refusals: 5, 8, 11, 12, 13, 9, 17, 16. */
uint64_t roffelaine_redeem(
    const uint64_t *day, size_t day_length,
    uint64_t *book, size_t book_length,
    const uint64_t *prices, size_t prices_length,
    size_t account, uint64_t units,
    uint64_t *records, size_t records_length,
    uint64_t *investor, size_t investor_length,
    uint64_t *fund, size_t fund_length,
    uint64_t *place, uint64_t *value, uint64_t *reports);

/*
 * The tests of a creation alone. Number, place and both counts are those that `roffelaine_create` would answer now with lists of
 * `records_length`, `investor_length` and `fund_length` numbers, 5 and 16 included. Day, book and prices are only read, no list is
 * lent, and nothing is written but `place`, `value` and `reports`.
 */
uint64_t roffelaine_creation_test(
    const uint64_t *day, size_t day_length,
    const uint64_t *book, size_t book_length,
    const uint64_t *prices, size_t prices_length,
    size_t account, uint64_t units,
    size_t records_length, size_t investor_length, size_t fund_length,
    uint64_t *place, uint64_t *value, uint64_t *reports);

/* The tests of a redemption alone: what `roffelaine_redeem` would answer now with lists of so many numbers, in the same way. */
uint64_t roffelaine_redemption_test(
    const uint64_t *day, size_t day_length,
    const uint64_t *book, size_t book_length,
    const uint64_t *prices, size_t prices_length,
    size_t account, uint64_t units,
    size_t records_length, size_t investor_length, size_t fund_length,
    uint64_t *place, uint64_t *value, uint64_t *reports);

/*
 * Makes a list of calls, one after the other: each row has nine numbers, its kind (enum roffelaine_call), its arguments and then any
 * numbers, and gets four in the answers: number, place, value, count of reports. The lists of an order are parts of the record run,
 * of the investor's and of the fund's; a part outside its run is the empty list. A row of another kind is answered with 1. The day
 * is tested once, where every call keeps it sound, as on each day that an opening and calls have led to. Refusal 1 of the whole: the
 * rows are not whole, or have not an answer each.
 */
uint64_t roffelaine_run(
    const uint64_t *day, size_t day_length,
    uint64_t *book, size_t book_length,
    uint64_t *prices, size_t prices_length,
    const uint64_t *rows, size_t rows_length,
    uint64_t *records, size_t records_length,
    uint64_t *investor, size_t investor_length,
    uint64_t *fund, size_t fund_length,
    uint64_t *answers, size_t answers_length,
    uint64_t *place, uint64_t *value);

/* The same, where each call tests the day as the calls above do, at their cost. It answers and leaves the same. */
uint64_t roffelaine_run_public(
    const uint64_t *day, size_t day_length,
    uint64_t *book, size_t book_length,
    uint64_t *prices, size_t prices_length,
    const uint64_t *rows, size_t rows_length,
    uint64_t *records, size_t records_length,
    uint64_t *investor, size_t investor_length,
    uint64_t *fund, size_t fund_length,
    uint64_t *answers, size_t answers_length,
    uint64_t *place, uint64_t *value);

/*
 * Reads a list text under a flag table or none: its components to the front of the run, its fields, at `first_row` the byte at which
 * its first component line starts, and at `value` their count. A rate or an amount is blank unless the component's flag is in use and
 * uses it. Refusals: 21, with place 0 also for a table of another width, 1 for fields of another width than 22, 18, 19, 20, 2, 3, 16.
 */
uint64_t roffelaine_read(
    const uint8_t *text, size_t text_length,
    const uint64_t *table, size_t table_length,
    uint64_t *component_run, size_t component_run_length,
    uint64_t *fields, size_t fields_length,
    uint64_t *first_row,
    uint64_t *place, uint64_t *value);

/*
 * The name of component j of a text that was read: its place and length go to the front of `part` where that has room for two
 * numbers (a shorter run is left as it is), and the length, 8, is the answer. `first_row` is what `roffelaine_read` gave for this
 * text. Where the text has not all bytes of a j-th component line and its end behind that place, as for every j from the count of an
 * accepted text on, the place and the answer are 0. Nothing else of the text is tested: where it was refused, or `first_row` is
 * another place, the part is the 8 bytes at which the name would stand.
 */
uint64_t roffelaine_name(
    const uint8_t *text, size_t text_length,
    size_t first_row, size_t j,
    uint64_t *part, size_t part_length);

/*
 * The letters of a text's first line: their place and length go to the front of `part` as above, and the length is the answer. The
 * place and the answer are 0 where the first line is not that of a list. No other line is tested, so a refused text may have letters.
 */
uint64_t roffelaine_letters(
    const uint8_t *text, size_t text_length,
    uint64_t *part, size_t part_length);

/*
 * Writes a list under a flag table or none at the front of the output, and at `value` how many bytes it takes; what is past them
 * stays. The run has 6 numbers and the names 8 bytes for each of the fields' N components. Refusals: 21, with place 0 also for a table
 * of another width, 1, also for fields of another width, 2, 3, 16.
 */
uint64_t roffelaine_write(
    const uint64_t *fields, size_t fields_length,
    const uint64_t *table, size_t table_length,
    const uint64_t *component_run, size_t component_run_length,
    const uint8_t *names, size_t names_length,
    const uint8_t *letters, size_t letters_length,
    uint8_t *output, size_t output_length,
    uint64_t *place, uint64_t *value);

#ifdef __cplusplus
}
#endif

#endif
