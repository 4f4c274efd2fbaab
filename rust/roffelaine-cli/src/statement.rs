//! A line of a day, understood word by word.

use crate::flag_rows::Row;
use roffelaine::{Money, ReferenceValue, Units, FLAGS, FLAG_COLUMNS};
use std::str::FromStr;

/// What a line of a day says.
#[derive(Clone, Copy, Debug, PartialEq, Eq)]
pub enum Statement {
    Accounts(u64),
    Cash {
        account: u64,
        amount: Money,
    },
    Hold {
        account: u64,
        code: u64,
        quantity: u64,
    },
    /// A flag's row of the flag table.
    Flag {
        flag: usize,
        row: Row,
    },
    Call(Call),
    /// Whether orders say their reports from here on.
    Reports {
        on: bool,
    },
    Show {
        account: u64,
    },
    Totals,
    Expect(Expectation),
}

impl Statement {
    /// Whether it gives what a day opens with.
    pub fn is_opening(&self) -> bool {
        matches!(
            self,
            Statement::Accounts(_)
                | Statement::Cash { .. }
                | Statement::Hold { .. }
                | Statement::Flag { .. }
        )
    }
}

/// A call of the day book, as a line says it.
#[derive(Clone, Copy, Debug, PartialEq, Eq)]
pub enum Call {
    Open,
    Price {
        code: u64,
        price: Money,
    },
    Trade(Trade),
    Create(Order),
    Redeem(Order),
    /// The tests alone of a creation, and of a redemption.
    TestCreate(Order),
    TestRedeem(Order),
    Value,
}

/// A trade of a code's shares or units.
#[derive(Clone, Copy, Debug, PartialEq, Eq)]
pub struct Trade {
    pub code: u64,
    pub quantity: u64,
    pub price: Money,
    pub seller: u64,
    pub buyer: u64,
}

impl Trade {
    /// What the buyer pays, in thousandths of a yuan.
    pub fn paid(&self) -> i128 {
        i128::from(self.quantity) * i128::from(self.price.0)
    }
}

/// An order, or one whose tests are made alone; all records that it makes have
/// room where none is said.
#[derive(Clone, Copy, Debug, PartialEq, Eq)]
pub struct Order {
    pub account: u64,
    pub units: Units,
    pub room: Option<u64>,
}

impl Call {
    /// The word that its line starts with, or the two of tests alone.
    pub fn word(&self) -> &'static str {
        match self {
            Call::Open => "open",
            Call::Price { .. } => "price",
            Call::Trade(_) => "trade",
            Call::Create(_) => "create",
            Call::Redeem(_) => "redeem",
            Call::TestCreate(_) => "test create",
            Call::TestRedeem(_) => "test redeem",
            Call::Value => "value",
        }
    }

    /// The order, where it is one.
    pub fn order(&self) -> Option<&Order> {
        match self {
            Call::Create(order) | Call::Redeem(order) => Some(order),
            _ => None,
        }
    }

    /// The order whose tests it makes alone, where it does.
    pub fn tested(&self) -> Option<&Order> {
        match self {
            Call::TestCreate(order) | Call::TestRedeem(order) => Some(order),
            _ => None,
        }
    }
}

/// What a line expects of the call before it, or of the book.
#[derive(Clone, Copy, Debug, PartialEq, Eq)]
pub enum Expectation {
    Refused {
        number: u64,
        place: Option<u64>,
    },
    Ok {
        count: Option<u64>,
    },
    Value(ReferenceValue),
    Lots {
        account: u64,
        code: u64,
        old: u64,
        bought: u64,
        got: u64,
    },
    Cash {
        account: u64,
        amount: Money,
    },
}

/// Why a line is not understood, and at which column.
#[derive(Clone, Debug, PartialEq, Eq)]
pub struct Fault {
    pub column: usize,
    pub why: String,
    /// Whether the line belongs to an opening, or might have been meant so.
    pub stops_open: bool,
}

/// What a line says; nothing where it is empty or a comment.
pub fn statement(line: &str) -> Result<Option<Statement>, Fault> {
    let mut words = Words::of(line);
    let Some((column, word)) = words.next() else {
        return Ok(None);
    };
    let said = match word {
        "accounts" => words.whole("A").map(Statement::Accounts),
        "cash" => cash(&mut words).map(|(account, amount)| Statement::Cash { account, amount }),
        "hold" => hold(&mut words),
        "flag" => flag(&mut words),
        "open" => Ok(Statement::Call(Call::Open)),
        "price" => price(&mut words),
        "trade" => trade(&mut words),
        "create" => order(&mut words).map(|order| Statement::Call(Call::Create(order))),
        "redeem" => order(&mut words).map(|order| Statement::Call(Call::Redeem(order))),
        "test" => test(&mut words),
        "value" => Ok(Statement::Call(Call::Value)),
        "reports" => reports(&mut words),
        "show" => words
            .whole("ACCOUNT")
            .map(|account| Statement::Show { account }),
        "totals" => Ok(Statement::Totals),
        "expect" => expectation(&mut words).map(Statement::Expect),
        other => Err(Fault {
            column,
            why: unknown_word(other),
            stops_open: true,
        }),
    };
    let said = said.and_then(|said| words.end().map(|()| said));
    let opening = matches!(word, "accounts" | "cash" | "hold" | "flag");
    said.map(Some).map_err(|fault| Fault {
        stops_open: fault.stops_open || opening,
        ..fault
    })
}

/// The words that a line of a day starts with.
const FIRST_WORDS: [&str; 15] = [
    "accounts", "cash", "hold", "flag", "open", "price", "trade", "create", "redeem", "test",
    "value", "reports", "show", "totals", "expect",
];

fn unknown_word(word: &str) -> String {
    let small = word.to_ascii_lowercase();
    match FIRST_WORDS.contains(&small.as_str()) {
        true => format!("{word:?} is written {small}"),
        false => format!("{word:?} is no word that a line of a day starts with"),
    }
}

/// The word that a line starts with; none where it is empty or a comment.
pub fn first_word(line: &str) -> Option<&str> {
    Words::of(line).next().map(|(_, word)| word)
}

/// The column at which a word of a line starts; the words count from 0.
pub fn column_of_word(line: &str, word: usize) -> usize {
    let mut words = Words::of(line);
    let word = std::iter::from_fn(|| words.next()).nth(word);
    word.map_or(1, |(column, _)| column)
}

fn cash(words: &mut Words<'_>) -> Result<(u64, Money), Fault> {
    Ok((words.whole("ACCOUNT")?, words.amount("YUAN")?))
}

fn hold(words: &mut Words<'_>) -> Result<Statement, Fault> {
    Ok(Statement::Hold {
        account: words.whole("ACCOUNT")?,
        code: words.code()?,
        quantity: words.whole("QUANTITY")?,
    })
}

/// The numbers of a flag's row, by their columns.
const ROW: [&str; FLAG_COLUMNS] = [
    "MOVES", "SHORT", "RATE", "AMOUNT", "SHANGHAI", "PRICED", "USE",
];

fn flag(words: &mut Words<'_>) -> Result<Statement, Fault> {
    let flag = words.flag()?;
    let mut row = [0; FLAG_COLUMNS];
    for (number, name) in row.iter_mut().zip(ROW) {
        *number = words.whole(name)?;
    }
    Ok(Statement::Flag { flag, row })
}

fn price(words: &mut Words<'_>) -> Result<Statement, Fault> {
    Ok(Statement::Call(Call::Price {
        code: words.code()?,
        price: words.amount("YUAN")?,
    }))
}

fn trade(words: &mut Words<'_>) -> Result<Statement, Fault> {
    Ok(Statement::Call(Call::Trade(Trade {
        code: words.code()?,
        quantity: words.whole("QUANTITY")?,
        price: words.amount("YUAN")?,
        seller: words.whole("SELLER")?,
        buyer: words.whole("BUYER")?,
    })))
}

fn order(words: &mut Words<'_>) -> Result<Order, Fault> {
    Ok(Order {
        account: words.whole("ACCOUNT")?,
        units: words.amount("UNITS")?,
        room: words.last_whole("ROOM")?,
    })
}

/// The tests alone of the order that the next words say.
fn test(words: &mut Words<'_>) -> Result<Statement, Fault> {
    let (column, word) = words.named("create or redeem")?;
    let call = match word {
        "create" => Call::TestCreate,
        "redeem" => Call::TestRedeem,
        other => {
            let why = format!("{other:?}: create or redeem is expected here");
            return Err(fault(column, why));
        }
    };
    order(words).map(|order| Statement::Call(call(order)))
}

fn reports(words: &mut Words<'_>) -> Result<Statement, Fault> {
    let (column, word) = words.named("on or off")?;
    match word {
        "on" => Ok(Statement::Reports { on: true }),
        "off" => Ok(Statement::Reports { on: false }),
        other => Err(fault(
            column,
            format!("{other:?}: on or off is expected here"),
        )),
    }
}

fn expectation(words: &mut Words<'_>) -> Result<Expectation, Fault> {
    let rest = words.clone();
    let (column, word) = words.named("what is expected")?;
    match word {
        "refused" => Ok(Expectation::Refused {
            number: words.whole("NUMBER")?,
            place: words.last_whole("PLACE")?,
        }),
        "ok" => Ok(Expectation::Ok {
            count: words.last_whole("COUNT")?,
        }),
        "value" => words.amount("VALUE").map(Expectation::Value),
        "cash" => cash(words).map(|(account, amount)| Expectation::Cash { account, amount }),
        account if account.starts_with(|first: char| first.is_ascii_digit()) => {
            *words = rest;
            lots(words)
        }
        other => Err(fault(
            column,
            format!("{other:?}: ok, refused, value, cash or an account is expected here"),
        )),
    }
}

fn lots(words: &mut Words<'_>) -> Result<Expectation, Fault> {
    Ok(Expectation::Lots {
        account: words.whole("ACCOUNT")?,
        code: words.code()?,
        old: words.whole("OLD")?,
        bought: words.whole("BOUGHT")?,
        got: words.whole("GOT")?,
    })
}

fn fault(column: usize, why: String) -> Fault {
    Fault {
        column,
        why,
        stops_open: false,
    }
}

/// The words of a line, with the column that each starts at.
#[derive(Clone)]
struct Words<'l> {
    line: &'l str,
    at: usize,
}

impl<'l> Words<'l> {
    /// The words before a comment.
    fn of(line: &'l str) -> Self {
        let end = line.find('#').unwrap_or(line.len());
        Words {
            line: &line[..end],
            at: 0,
        }
    }

    /// The next word, or nothing at the end.
    fn next(&mut self) -> Option<(usize, &'l str)> {
        let is_blank = |byte: &u8| matches!(byte, b' ' | b'\t' | b'\r');
        let bytes = &self.line.as_bytes()[self.at..];
        let start = self.at + bytes.iter().position(|byte| !is_blank(byte))?;
        let length = self.line.as_bytes()[start..].iter().position(is_blank);
        self.at = length.map_or(self.line.len(), |length| start + length);
        Some((self.column_of(start), &self.line[start..self.at]))
    }

    /// The column of a byte, as an editor counts characters.
    fn column_of(&self, byte: usize) -> usize {
        self.line[..byte].chars().count() + 1
    }

    fn named(&mut self, name: &str) -> Result<(usize, &'l str), Fault> {
        let end = self.column_of(self.line.trim_end().len());
        self.next()
            .ok_or_else(|| fault(end, format!("{name} is missing")))
    }

    /// A word that must be there, as an amount.
    fn amount<T: FromStr<Err = roffelaine::AmountError>>(
        &mut self,
        name: &str,
    ) -> Result<T, Fault> {
        let (column, word) = self.named(name)?;
        word.parse()
            .map_err(|error| fault(column, format!("{name} {word:?}: {error}")))
    }

    fn whole(&mut self, name: &str) -> Result<u64, Fault> {
        self.amount::<Units>(name).map(|whole| whole.0)
    }

    /// A number that may be left out.
    fn last_whole(&mut self, name: &str) -> Result<Option<u64>, Fault> {
        match self.clone().next() {
            None => Ok(None),
            Some(_) => self.whole(name).map(Some),
        }
    }

    fn code(&mut self) -> Result<u64, Fault> {
        let (column, word) = self.named("CODE")?;
        let is_code = word.len() == 6 && word.bytes().all(|byte| byte.is_ascii_digit());
        let code = word.parse().ok().filter(|_| is_code);
        code.ok_or_else(|| fault(column, format!("CODE {word:?}: a code has six digits")))
    }

    /// A flag of the table.
    fn flag(&mut self) -> Result<usize, Fault> {
        let (column, word) = self.clone().named("FLAG")?;
        let flag = usize::try_from(self.whole("FLAG")?).ok();
        let flag = flag.filter(|flag| *flag < FLAGS);
        let last = FLAGS - 1;
        flag.ok_or_else(|| fault(column, format!("FLAG {word:?}: a flag is 0 to {last}")))
    }

    /// Nothing may follow.
    fn end(&mut self) -> Result<(), Fault> {
        match self.next() {
            None => Ok(()),
            Some((column, word)) => Err(fault(column, format!("{word:?} is one word too many"))),
        }
    }
}

#[cfg(test)]
mod tests {
    use super::*;

    fn said(line: &str) -> Statement {
        statement(line).expect("understood").expect("a statement")
    }

    fn faulty(line: &str) -> (usize, String, bool) {
        let fault = statement(line).expect_err("not understood");
        (fault.column, fault.why, fault.stops_open)
    }

    #[test]
    fn blanks_tabs_and_comments_are_passed_over() {
        for line in ["", "  \t ", "# open", " \t# x", "\r"] {
            assert_eq!(statement(line), Ok(None), "{line:?}");
        }
        assert_eq!(said("\t open# now"), Statement::Call(Call::Open));
        assert_eq!(
            said("cash\t1\t 4000000000000000.000 # all\r"),
            Statement::Cash {
                account: 1,
                amount: Money(4_000_000_000_000_000_000)
            }
        );
    }

    #[test]
    fn numbers_go_to_the_last_of_64_bits() {
        assert_eq!(
            said("hold 1 000001 18446744073709551615"),
            Statement::Hold {
                account: 1,
                code: 1,
                quantity: u64::MAX
            }
        );
        let (column, why, _) = faulty("hold 1 000001 18446744073709551616");
        assert_eq!(column, 15);
        assert_eq!(
            why,
            "QUANTITY \"18446744073709551616\": more than 18446744073709551615"
        );
    }

    #[test]
    fn a_row_of_the_flag_table_may_have_any_numbers() {
        assert_eq!(
            said("flag 5 1 1 1 0 1 1 1 # piloted"),
            Statement::Flag {
                flag: 5,
                row: [1, 1, 1, 0, 1, 1, 1]
            }
        );
        assert_eq!(
            said("flag 9 0 2 18446744073709551615 0 0 0 0"),
            Statement::Flag {
                flag: 9,
                row: [0, 2, u64::MAX, 0, 0, 0, 0]
            }
        );
        let faults = [
            ("flag", 5, "FLAG is missing"),
            ("flag 10 1 1 1 0 1 1 1", 6, "FLAG \"10\": a flag is 0 to 9"),
            ("flag x", 6, "FLAG \"x\": a number has digits alone"),
            (
                "flag 18446744073709551615",
                6,
                "FLAG \"18446744073709551615\": a flag is 0 to 9",
            ),
            ("flag 5", 7, "MOVES is missing"),
            ("flag 5 1 1 1 0 1 1", 19, "USE is missing"),
            ("flag 5 1 -1", 10, "SHORT \"-1\": a number has digits alone"),
            (
                "flag 5 1 1 1 0 1 yes 1",
                18,
                "PRICED \"yes\": a number has digits alone",
            ),
            ("flag 5 1 1 1 0 1 1 1 1", 22, "\"1\" is one word too many"),
        ];
        for (line, column, why) in faults {
            assert_eq!(faulty(line), (column, why.to_string(), true), "{line:?}");
        }
    }

    #[test]
    fn faults_say_why_and_where() {
        let faults = [
            (
                "cash 1 1,000,000",
                8,
                "YUAN \"1,000,000\": a number is written without commas",
                true,
            ),
            ("cash 1", 7, "YUAN is missing", true),
            ("open now", 6, "\"now\" is one word too many", false),
            (
                "price 60003 1",
                7,
                "CODE \"60003\": a code has six digits",
                false,
            ),
            ("create 1 5 3 4", 14, "\"4\" is one word too many", false),
            (
                "create 1 1.5",
                10,
                "UNITS \"1.5\": a whole number has no decimals",
                false,
            ),
            (
                "csh 1 5",
                1,
                "\"csh\" is no word that a line of a day starts with",
                true,
            ),
            ("  Open", 3, "\"Open\" is written open", true),
            ("reports", 8, "on or off is missing", false),
            (
                "reports yes",
                9,
                "\"yes\": on or off is expected here",
                false,
            ),
            ("reports ON", 9, "\"ON\": on or off is expected here", false),
            ("reports on off", 12, "\"off\" is one word too many", false),
            ("Reports on", 1, "\"Reports\" is written reports", true),
            (
                "expect never",
                8,
                "\"never\": ok, refused, value, cash or an account is expected here",
                false,
            ),
            (
                "expect   # nothing",
                7,
                "what is expected is missing",
                false,
            ),
        ];
        for (line, column, why, stops_open) in faults {
            assert_eq!(
                faulty(line),
                (column, why.to_string(), stops_open),
                "{line:?}"
            );
        }
    }

    #[test]
    fn tests_alone_say_the_order() {
        let order = Order {
            account: 1,
            units: Units(5),
            room: Some(3),
        };
        let test = |call| Statement::Call(call);
        assert_eq!(said("test create 1 5 3"), test(Call::TestCreate(order)));
        let room = None;
        assert_eq!(
            said("\ttest  redeem 1 5 # now"),
            test(Call::TestRedeem(Order { room, ..order }))
        );
    }

    #[test]
    fn tests_alone_need_the_order() {
        let faults = [
            ("test", 5, "create or redeem is missing", false),
            ("test create", 12, "ACCOUNT is missing", false),
            (
                "test trade 1 5",
                6,
                "\"trade\": create or redeem is expected here",
                false,
            ),
            (
                "test redeem 1 1.5",
                15,
                "UNITS \"1.5\": a whole number has no decimals",
                false,
            ),
            (
                "test create 1 5 3 4",
                19,
                "\"4\" is one word too many",
                false,
            ),
            ("TEST create 1 5", 1, "\"TEST\" is written test", true),
        ];
        for (line, column, why, stops_open) in faults {
            let fault = (column, why.to_string(), stops_open);
            assert_eq!(faulty(line), fault, "{line:?}");
        }
    }

    #[test]
    fn reports_are_on_or_off() {
        assert_eq!(said("reports on"), Statement::Reports { on: true });
        assert_eq!(
            said("\treports  off # now"),
            Statement::Reports { on: false }
        );
    }

    #[test]
    fn expectations_are_told_apart() {
        assert_eq!(
            said("expect refused 9 3"),
            Statement::Expect(Expectation::Refused {
                number: 9,
                place: Some(3)
            })
        );
        assert_eq!(
            said("expect ok"),
            Statement::Expect(Expectation::Ok { count: None })
        );
        assert_eq!(
            said("expect 1 510300 0 5 7"),
            Statement::Expect(Expectation::Lots {
                account: 1,
                code: 510_300,
                old: 0,
                bought: 5,
                got: 7
            })
        );
        assert_eq!(
            said("expect value 0.4257"),
            Statement::Expect(Expectation::Value(ReferenceValue(4_257)))
        );
    }
}
