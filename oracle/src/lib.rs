//! The second program for the rules of document 01 and the rehearsal of wish 1: written from these words alone, apart
//! from the proved one, and plainly.

pub mod admission;
pub mod cases_admission;
pub mod cases_machine;
pub mod cases_rehearsal;
pub mod cases_texts;
pub mod counts;
pub mod draw;
pub mod files;
pub mod folders;
pub mod machine;
pub mod programs;
pub mod records;
pub mod rehearsal;
pub mod rng;
pub mod search;
pub mod table;
pub mod texts;
