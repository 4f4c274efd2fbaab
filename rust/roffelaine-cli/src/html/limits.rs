//! How much of the list's limits the orders of the day have used.

use super::text::{account_name, grouped};
use crate::session::Session;
use roffelaine::{Account, Limits, Units};
use std::io::{self, Write};

/// One of the list's limits.
struct Limit {
    name: &'static str,
    units: Units,
    is_redemption: bool,
    is_per_account: bool,
    is_net: bool,
}

/// What is used of a limit, and by whom.
struct Used {
    who: String,
    units: u128,
}

/// Units that an account has created and redeemed.
type Ordered = (u128, u128);

/// Writes a bar for each limit that is set, for each account where the limit is
/// one of an account.
pub fn section(out: &mut impl Write, session: &Session<'_>) -> io::Result<()> {
    write!(out, "<section id=\"limits\"><h2>Limits used</h2>")?;
    let limits = set_limits(&session.list().head.fund.limits);
    if limits.is_empty() {
        return writeln!(out, "<p>The list sets no limits.</p></section>");
    }
    let book = session.day().book();
    if book.accounts() == 0 {
        return writeln!(out, "<p>No day was opened.</p></section>");
    }
    let accounts = (0..book.accounts()).filter_map(|each| book.account(each));
    let ordered: Vec<Ordered> = accounts.map(|each| ordered(&each)).collect();
    for limit in &limits {
        let (name, words) = (limit.name, limit.words());
        write!(
            out,
            "<h3>{name} {}</h3><p class=\"f\">{words}</p>",
            grouped(limit.units)
        )?;
        bars(out, limit, &limit.used(&ordered))?;
    }
    writeln!(out, "</section>")
}

/// The limits above 0, in the list's order.
fn set_limits(limits: &Limits) -> Vec<Limit> {
    let named = Limits::NAMES.into_iter().zip(limits.in_order());
    let all = named.enumerate().map(|(place, (name, units))| Limit {
        name,
        units,
        is_redemption: place % 2 == 1,
        is_per_account: place / 2 % 2 == 1,
        is_net: place >= 4,
    });
    all.filter(|limit| limit.units.0 > 0).collect()
}

fn ordered(account: &Account<'_>) -> Ordered {
    (account.created().0.into(), account.redeemed().0.into())
}

impl Limit {
    fn words(&self) -> String {
        let (made, undone) = match self.is_redemption {
            false => ("created", "redeemed"),
            true => ("redeemed", "created"),
        };
        let less = match self.is_net {
            false => String::new(),
            true => format!(" less units {undone}, not below 0,"),
        };
        let who = match self.is_per_account {
            false => "all accounts",
            true => "one account",
        };
        format!("Units {made}{less} by {who}")
    }

    /// Made, and less what is undone where the limit is a net one.
    fn units_of(&self, (created, redeemed): Ordered) -> u128 {
        let (made, undone) = match self.is_redemption {
            false => (created, redeemed),
            true => (redeemed, created),
        };
        match self.is_net {
            false => made,
            true => made.saturating_sub(undone),
        }
    }

    /// By all accounts, or by each account that has made such orders.
    fn used(&self, accounts: &[Ordered]) -> Vec<Used> {
        if !self.is_per_account {
            let all = accounts
                .iter()
                .fold((0, 0), |all, each| (all.0 + each.0, all.1 + each.1));
            let who = "all accounts".to_string();
            return vec![Used {
                who,
                units: self.units_of(all),
            }];
        }
        let has_ordered = |&(created, redeemed): &Ordered| {
            let made = if self.is_redemption {
                redeemed
            } else {
                created
            };
            made > 0
        };
        let numbered = (0u64..).zip(accounts.iter().copied());
        numbered
            .filter(|(_, ordered)| has_ordered(ordered))
            .map(|(account, ordered)| Used {
                who: account_name(account),
                units: self.units_of(ordered),
            })
            .collect()
    }
}

fn bars(out: &mut impl Write, limit: &Limit, used: &[Used]) -> io::Result<()> {
    if used.is_empty() {
        let made = if limit.is_redemption {
            "redeemed"
        } else {
            "created"
        };
        return write!(out, "<p class=\"f\">No account has {made} units.</p>");
    }
    write!(out, "<ul class=\"bars\">")?;
    for Used { who, units } in used {
        let part = percent(*units, limit.units.0.into());
        let of = grouped(limit.units);
        let left = grouped(u128::from(limit.units.0).saturating_sub(*units));
        let words = format!("{} of {of} units used, {left} left", grouped(units));
        write!(
            out,
            "<li><span>{who}</span><div class=\"bar\" role=\"img\" aria-label=\"{who}: {words}, \
             {part} %\"><div style=\"width:{part}%\"></div></div><span>{words}</span></li>"
        )?;
    }
    write!(out, "</ul>")
}

/// The part of a whole in percent with one decimal, rounded down; at most all
/// of it.
fn percent(part: u128, whole: u128) -> String {
    let thousandths = part.min(whole) * 1_000 / whole;
    format!("{}.{}", thousandths / 10, thousandths % 10)
}
