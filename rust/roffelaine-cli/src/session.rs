//! A day rehearsed line by line on the day book.

mod expected;
mod opening;
mod tested;
mod together;

use crate::posting::{held, Posting};
use crate::reasons::{self, Situation};
use crate::said::{Answer, Counts, Entry, Made, Position, Refused, Said, Total};
use crate::statement::{column_of_word, statement, Call, Fault, Statement};
use opening::{Opening, CASH};
use roffelaine::{Day, List, Refusal};

/// A day that is rehearsed.
pub struct Session<'l> {
    list: &'l List<'l>,
    day: Day,
    opening: Opening,
    posting: Posting,
    /// Whether orders say their reports.
    reports_on: bool,
    /// The last answer, for what is expected of it.
    last: Option<Answer>,
    counts: Counts,
}

impl<'l> Session<'l> {
    pub fn new(list: &'l List<'l>) -> Self {
        Session {
            list,
            day: Day::closed(),
            opening: Opening::default(),
            posting: Posting::default(),
            reports_on: false,
            last: None,
            counts: Counts::default(),
        }
    }

    pub fn list(&self) -> &'l List<'l> {
        self.list
    }

    pub fn day(&self) -> &Day {
        &self.day
    }

    /// The positions as posted from the opening, the trades and the records.
    pub fn posting(&self) -> &Posting {
        &self.posting
    }

    pub fn counts(&self) -> &Counts {
        &self.counts
    }

    /// Does what a line says, and says what it came to.
    pub fn line(&mut self, line: usize, text: &str) -> Option<Entry> {
        let said = match statement(text) {
            Ok(None) => return None,
            Ok(Some(statement)) => {
                let said = self.statement(line, &statement);
                said.map_err(|misfit| Fault {
                    column: column_of_word(text, misfit.word),
                    why: misfit.why,
                    stops_open: statement.is_opening(),
                })
            }
            Err(fault) => Err(fault),
        };
        let said = said.unwrap_or_else(|fault| {
            // On an open day a faulty line says nothing of the next opening.
            let stops_open = fault.stops_open && self.opening.open_since.is_none();
            self.opening.faulty += usize::from(stops_open);
            Some(Said::NotUnderstood {
                column: fault.column,
                why: fault.why,
            })
        })?;
        self.counts.add(&said);
        Some(Entry { line, said })
    }

    /// What is left to say at the end: that lines give what no day opened with.
    pub fn end(&mut self) -> Option<Entry> {
        let line = self.opening.waits_since()?;
        let said = not_made("no line `open` follows");
        self.counts.add(&said);
        Some(Entry { line, said })
    }

    fn statement(&mut self, line: usize, statement: &Statement) -> Result<Option<Said>, Misfit> {
        match *statement {
            Statement::Accounts(accounts) => {
                self.opening.start(line, accounts)?;
                self.day = Day::closed();
                self.posting = Posting::default();
                Ok(None)
            }
            Statement::Cash { account, amount } => {
                let at = (account, CASH);
                self.opening.give(line, at, amount.0, "cash")?;
                Ok(None)
            }
            Statement::Hold {
                account,
                code,
                quantity,
            } => {
                let place = self.list.line_of(code);
                let place = place.ok_or_else(|| misfit(CODE_WORD, self.unknown_code(code)))?;
                let (at, name) = ((account, place), format!("{code:06}"));
                self.opening.give(line, at, quantity, &name)?;
                Ok(None)
            }
            Statement::Flag { flag, row } => {
                self.opening.give_row(line, flag, row)?;
                Ok(None)
            }
            Statement::Call(Call::Open) => Ok(Some(self.open(line))),
            Statement::Call(call) => Ok(self.call(call)),
            Statement::Reports { on } => {
                self.reports_on = on;
                Ok(None)
            }
            Statement::Show { account } => self.show(account).map(Some),
            Statement::Totals => self.totals().map(Some),
            Statement::Expect(expected) => Ok(Some(self.expect(&expected))),
        }
    }

    /// Makes a call by itself.
    fn call(&mut self, call: Call) -> Option<Said> {
        let answer = match call.tested() {
            Some(order) => self.tested(call, order),
            None => self.answers(&[call]).pop()?,
        };
        Some(self.answer(answer))
    }

    /// Opens the day, unless a line above it is faulty or it is open.
    fn open(&mut self, line: usize) -> Said {
        self.opening.is_tried();
        if let Some(since) = self.opening.open_since {
            return Said::NotMade {
                why: format!("the day is open since line {since}"),
            };
        }
        match self.opening.faulty {
            0 => {}
            1 => return not_made("1 line above is faulty"),
            lines => return not_made(&format!("{lines} lines above are faulty")),
        }
        let outcome = self.opened();
        if outcome.is_ok() {
            self.opening.open_since = Some(line);
        }
        self.answer(Answer {
            call: Call::Open,
            outcome,
        })
    }

    /// Opens the day with what the lines above have given.
    fn opened(&mut self) -> Result<Made, Refused> {
        let (fund, components) = (&self.list.head.fund, &self.list.components);
        let holdings = self.opening.holdings(components.len() + 1);
        let given = self.opening.rows.table();
        let table = given.unwrap_or_default();
        match Day::open_with_table(fund, &table, components, &holdings) {
            Ok(day) => {
                self.day = day;
                self.posting = Posting::of(&holdings);
                Ok(Made::Opened {
                    table: given.map(Box::new),
                })
            }
            Err(refusal) => {
                let accounts = self.opening.accounts.map(|(accounts, _)| accounts);
                let reason = reasons::opening(self.list, &table, accounts, &holdings, refusal);
                Err(Refused { refusal, reason })
            }
        }
    }

    /// Why a call is refused on the day as it stands.
    fn reason(&self, call: &Call, refusal: Refusal) -> String {
        let situation = Situation {
            list: self.list,
            day: &self.day,
            is_open: self.day.components() > 0,
        };
        situation.reason(call, refusal)
    }

    /// The line of a code; one that no day has where the list has no such code.
    fn line_of(&self, code: u64) -> usize {
        self.list.line_of(code).unwrap_or(usize::MAX)
    }

    fn answer(&mut self, answer: Answer) -> Said {
        self.last = Some(answer.clone());
        Said::Answer(answer)
    }

    /// Why a code has no line.
    fn unknown_code(&self, code: u64) -> String {
        let unit = self.list.head.fund.first_code;
        match code.checked_sub(unit) {
            Some(1..=5) => format!("{code:06} is a code of the fund; units stand under {unit:06}"),
            _ => format!("{code:06} is neither a component of the list nor the unit {unit:06}"),
        }
    }

    fn account_fault(&self, account: u64) -> Option<String> {
        match self.day.book().accounts() {
            0 => Some("no day is open".to_string()),
            accounts if account >= accounts as u64 => {
                let last = accounts - 1;
                Some(format!("account {account}: the day has 0 to {last}"))
            }
            _ => None,
        }
    }

    fn show(&self, account: u64) -> Result<Said, Misfit> {
        match self.account_fault(account) {
            None => Ok(Said::Account(self.position(account as usize))),
            Some(why) => Err(misfit(ACCOUNT_WORD, why)),
        }
    }

    /// What an account of the open day has.
    pub fn position(&self, account: usize) -> Position {
        let (book, codes) = (self.day.book(), 0..self.day.components() + 1);
        let of = book.account(account).expect("an account of the day");
        let lots = codes.filter_map(|line| {
            let lots = of.lots(line);
            (lots.total() > 0).then(|| (self.day.code_of(line).unwrap_or_default(), lots))
        });
        Position {
            account,
            cash: of.cash(),
            created: of.created(),
            redeemed: of.redeemed(),
            lots: lots.collect(),
        }
    }

    fn totals(&self) -> Result<Said, Misfit> {
        if self.day.book().accounts() == 0 {
            return Err(misfit(FIRST_WORD, "no day is open".to_string()));
        }
        Ok(Said::Totals(self.all_totals()))
    }

    /// For each line and cash what moved over the fund and all accounts, and
    /// what the book holds.
    pub fn all_totals(&self) -> Vec<Total> {
        let book = self.day.book();
        let accounts = 0..self.posting.accounts();
        let places = 0..self.posting.places();
        let total = |place| {
            let moves = self.posting.total(place);
            Total {
                code: self.day.code_of(place),
                opened: moves.opened,
                came_in: moves.came_in,
                went_out: moves.went_out,
                holds: accounts.clone().map(|each| held(&book, each, place)).sum(),
            }
        };
        places.map(total).collect()
    }
}

/// What a line says that does not fit the day, and which of its words.
struct Misfit {
    word: usize,
    why: String,
}

fn misfit(word: usize, why: String) -> Misfit {
    Misfit { word, why }
}

const FIRST_WORD: usize = 0;
const ACCOUNT_WORD: usize = 1;
const CODE_WORD: usize = 2;

fn not_made(why: &str) -> Said {
    Said::NotMade {
        why: why.to_string(),
    }
}
