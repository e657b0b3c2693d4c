//! A straightforward solver of rule sheets, written from the scope paper
//! alone, and tests that hold another desk (the static archive) against it.
//!
//! - [`sheet`]: the record of a sheet and its bytes.
//! - [`plain`]: the solver: reader, meaning, forcing, search, calls.
//! - [`definition`]: the paper's definitions over all subsets and all maps,
//!   for small sheets; it shares no code with [`plain`].
//! - [`desk`]: the seven calls as a C caller sees them, as a record of
//!   function pointers, and buffers with guard bytes around them.
//! - [`draw`], [`generator`]: seeded sheets, maps and numbers.
//! - [`bounds`]: sheets with a bound about the sum of its rule's weights, and
//!   what check answers to them.
//! - [`repeats`]: sheets with repeated rules, and with rules that differ from
//!   another in one thing only.
//! - [`agreement`]: what two desks, or a desk and the definitions, must agree on.
//! - [`translations`]: n-colouring and 3-SAT as sheets.
//! - [`smodels`]: a sheet in the text form that clasp reads.

pub mod agreement;
pub mod answer;
pub mod bounds;
pub mod cases;
pub mod definition;
pub mod desk;
pub mod draw;
pub mod generator;
pub mod plain;
pub mod repeats;
pub mod sheet;
pub mod smodels;
pub mod translations;
