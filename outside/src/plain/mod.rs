//! The plain solver. It does the obvious thing at every place: it reads the
//! whole sheet into a record, takes the set of its rules once, looks at every
//! rule again after each change, and copies the map at each guess.

pub mod calls;
pub mod forcing;
pub mod maps;
pub mod meaning;
pub mod numbers;
pub mod reader;
pub mod search;

pub use calls::{desk_check, desk_margin, desk_open, desk_pin, desk_rule, desk_solve, desk_test};
