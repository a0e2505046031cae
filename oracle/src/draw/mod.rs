//! Generators. All of them draw from one seeded source, so a run can be repeated.

pub mod rehearsals;
pub mod reports;
pub mod states;
pub mod tables;
pub mod texts;
