//! The calls that an engine with a fault in its orders leaves to the model.

/// All calls of an engine but single calls and the driver's one test: the model's.
macro_rules! the_rest_of_the_model {
    () => {
        fn run_one_by_one(&self, rows: &[u64], lent: &mut Lent, answers: &mut [u64]) -> Reply {
            Model.run_one_by_one(rows, lent, answers)
        }

        fn open(&self, opening: &Opening<'_>, lent: &mut Lent) -> Reply {
            Model.open(opening, lent)
        }

        fn read(&self, text: &[u8], table: &[u64], lent: &mut LentList) -> Reply {
            Model.read(text, table, lent)
        }

        fn name(&self, text: &[u8], first_row: u64, component: u64, part: &mut [u64]) -> u64 {
            Model.name(text, first_row, component, part)
        }

        fn letters(&self, text: &[u8], part: &mut [u64]) -> u64 {
            Model.letters(text, part)
        }

        fn write(&self, list: &Writing<'_>, output: &mut [u8]) -> Reply {
            Model.write(list, output)
        }
    };
}
