//! The list text: reading, writing, and its letters and names.

mod component_line;
mod dates;
mod head;
mod layout;
mod numbers;
mod reading;
mod writing;

pub use head::Head;
pub use layout::{COMPONENT_LINE, HEAD_NAMES, NAME_BYTES};
pub use reading::{letters_of, name, name_behind, read, List};
pub use writing::{write, Writing};
