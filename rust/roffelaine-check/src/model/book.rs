//! The book: for each account cash, created, redeemed, then the lots old,
//! bought and got of each line.

/// Numbers of an account before its lots.
pub const STRETCH_HEAD: usize = 3;
/// Lots of a line.
pub const LOTS: usize = 3;

pub(super) const CASH: usize = 0;
pub(super) const CREATED: usize = 1;
pub(super) const REDEEMED: usize = 2;

pub(super) const OLD: usize = 0;
pub(super) const BOUGHT: usize = 1;
pub(super) const GOT: usize = 2;

/// Numbers of one account's stretch with `count` components.
#[inline]
pub const fn stretch_width(count: usize) -> usize {
    STRETCH_HEAD + LOTS * (count + 1)
}

/// Numbers of the whole book.
pub const fn book_length(accounts: usize, count: usize) -> usize {
    accounts * stretch_width(count)
}

/// Numbers that an opening takes as cash and holdings.
pub const fn holdings_length(accounts: usize, count: usize) -> usize {
    accounts * (count + 2)
}

#[inline]
pub(super) fn stretch(book: &[u64], width: usize, account: u64) -> &[u64] {
    &book[account as usize * width..][..width]
}

#[inline]
pub(super) fn stretch_mut(book: &mut [u64], width: usize, account: u64) -> &mut [u64] {
    &mut book[account as usize * width..][..width]
}

/// The fund's stretch and that of another account.
#[inline]
pub(super) fn fund_and_account(
    book: &mut [u64],
    width: usize,
    account: u64,
) -> (&mut [u64], &mut [u64]) {
    let (fund, others) = book.split_at_mut(width);
    (fund, stretch_mut(others, width, account - 1))
}

#[inline]
pub(super) fn lots(stretch: &[u64], line: usize) -> &[u64] {
    &stretch[STRETCH_HEAD + LOTS * line..][..LOTS]
}

#[inline]
pub(super) fn lots_mut(stretch: &mut [u64], line: usize) -> &mut [u64] {
    &mut stretch[STRETCH_HEAD + LOTS * line..][..LOTS]
}

/// What a sale may take.
#[inline]
pub(super) fn sellable(lots: &[u64]) -> u64 {
    lots[GOT] + lots[OLD]
}

/// What may be handed in.
#[inline]
pub(super) fn handable(lots: &[u64]) -> u64 {
    lots[BOUGHT] + lots[OLD]
}

/// Takes from got first, then old.
#[inline]
pub(super) fn sell(lots: &mut [u64], quantity: u64) {
    take(lots, GOT, quantity);
}

/// Takes from bought first, then old.
#[inline]
pub(super) fn hand_in(lots: &mut [u64], quantity: u64) {
    take(lots, BOUGHT, quantity);
}

#[inline]
fn take(lots: &mut [u64], first: usize, quantity: u64) {
    let from_first = quantity.min(lots[first]);
    lots[first] -= from_first;
    lots[OLD] -= quantity - from_first;
}
