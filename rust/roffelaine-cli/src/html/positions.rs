//! What each account has, by lots.

use super::looks::How;
use super::text::{grouped, Escaped};
use crate::names::text_name;
use crate::said::Position;
use crate::session::Session;
use roffelaine::List;
use std::io::{self, Write};

/// Writes the positions of all accounts at the end of the day.
pub fn section(out: &mut impl Write, session: &Session<'_>) -> io::Result<()> {
    write!(
        out,
        "<section id=\"positions\"><h2>Positions at the end</h2>"
    )?;
    let accounts = session.day().book().accounts();
    if accounts == 0 {
        return writeln!(out, "<p>No day was opened.</p></section>");
    }
    write!(
        out,
        "<p>Shares, and units under the first code, of which an account has any. Old: held since \
         the opening, may be sold and handed in. Bought: bought today, may be handed in. \
         Got: created or got by redemption today, may be sold.</p>"
    )?;
    for account in 0..accounts {
        let position = session.position(account);
        let how = How::of_rows(position.lots.len());
        let title = match account {
            0 => "The fund (account 0)".to_string(),
            account => format!("Account {account}"),
        };
        let figures = figures(&position);
        write!(
            out,
            "<div class=\"p\"{how}><h3>{title}</h3><p class=\"f\">{figures}</p>"
        )?;
        lots(out, session.list(), &position)?;
        writeln!(out, "</div>")?;
    }
    writeln!(out, "</section>")
}

/// An account's cash, and the units that it has created and redeemed.
pub fn figures(position: &Position) -> String {
    let (created, redeemed) = (grouped(position.created), grouped(position.redeemed));
    let cash = grouped(position.cash);
    format!("Cash {cash} yuan, created {created} units, redeemed {redeemed} units")
}

/// Writes an account's lots.
pub fn lots(out: &mut impl Write, list: &List<'_>, position: &Position) -> io::Result<()> {
    if position.lots.is_empty() {
        return write!(out, "<p class=\"f\">No shares and no units</p>");
    }
    write!(
        out,
        "<div class=\"w\"><table><thead><tr><th scope=\"col\">Code</th>\
         <th scope=\"col\" class=\"t\">Name</th><th scope=\"col\">Old</th>\
         <th scope=\"col\">Bought</th><th scope=\"col\">Got</th>\
         <th scope=\"col\">Total</th></tr></thead><tbody>"
    )?;
    for (code, lots) in &position.lots {
        let name = text_name(list, *code);
        let numbers = [lots.old, lots.bought, lots.got, lots.total()];
        let [old, bought, got, total] = numbers.map(grouped);
        write!(
            out,
            "<tr><th scope=\"row\">{code:06}</th><td class=\"t\">{}</td><td>{old}</td>\
             <td>{bought}</td><td>{got}</td><td>{total}</td></tr>",
            Escaped(&name)
        )?;
    }
    write!(out, "</tbody></table></div>")
}
