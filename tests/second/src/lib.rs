//! The second program: an independent checker and stepper of document 01 with
//! changes 1 to 7 of document 02.
//!
//! It shares no line with the proved implementation and serves as its test
//! oracle and speed baseline. The path of a file through the modules is
//! `text`, `layout`, `rules`, then `state`, `step` and `listing`; that of a
//! drawn file is `text`, `arrange` and `listing`.
#![forbid(unsafe_code)]

pub mod arrange;
pub mod effect;
pub mod evaluate;
pub mod frame;
pub mod generate;
pub mod group;
pub mod layout;
pub mod listing;
pub mod place;
pub mod property;
pub mod rules;
pub mod state;
pub mod step;
pub mod tally;
pub mod text;
pub mod types;
pub mod verdict;
