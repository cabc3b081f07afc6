//! The same answers by a plain program, written from docs/RULES.md, docs/REFUSALS.md and docs/FORMAT.md.

pub mod answers;
pub mod checks;
pub mod drains;
pub mod faults;
pub mod files;
pub mod judges;
pub mod loads;
pub mod networks;
pub mod numbering;
pub mod tracing;
