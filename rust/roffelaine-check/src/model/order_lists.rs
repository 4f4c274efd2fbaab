//! The three lists that an order is lent.

/// One of something for each list: the records, the investor's reports and the
/// fund's.
#[derive(Clone, Copy, Debug, Default, PartialEq, Eq)]
pub struct PerList<T> {
    pub records: T,
    pub investor: T,
    pub fund: T,
}

/// Lengths of the lists, in numbers.
pub type Lengths = PerList<usize>;

/// The lists as they are lent.
pub type Lists<'a> = PerList<&'a mut [u64]>;

impl<T> From<[T; 3]> for PerList<T> {
    fn from([records, investor, fund]: [T; 3]) -> Self {
        PerList {
            records,
            investor,
            fund,
        }
    }
}

impl<T> PerList<T> {
    /// What a function makes of each.
    pub fn map<U>(self, mut make: impl FnMut(T) -> U) -> PerList<U> {
        PerList {
            records: make(self.records),
            investor: make(self.investor),
            fund: make(self.fund),
        }
    }

    /// Each with the other's.
    pub fn zip<U>(self, other: PerList<U>) -> PerList<(T, U)> {
        PerList {
            records: (self.records, other.records),
            investor: (self.investor, other.investor),
            fund: (self.fund, other.fund),
        }
    }

    /// All three, in this order.
    pub fn each(self) -> [T; 3] {
        [self.records, self.investor, self.fund]
    }

    pub fn as_ref(&self) -> PerList<&T> {
        PerList {
            records: &self.records,
            investor: &self.investor,
            fund: &self.fund,
        }
    }

    pub fn as_mut(&mut self) -> PerList<&mut T> {
        PerList {
            records: &mut self.records,
            investor: &mut self.investor,
            fund: &mut self.fund,
        }
    }
}
