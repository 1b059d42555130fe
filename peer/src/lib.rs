//! An independent second program for document 01 ('Build definition and exact rules').
//!
//! It is written from the document, and from docs/LAYOUT.md for sessions and the lent table, on plain lists, one step of
//! the paper after the other, so that a reader can hold it against the paper line by line. The proved program is compared
//! with it on random sessions and random lent tables. It is not fast and does not want to be: where the paper says
//! 'while', it loops; where the paper says 'the numbers from M to C', it keeps that list.

#![forbid(unsafe_code)]
#![warn(missing_docs)]

pub mod answer;
pub mod capability;
pub mod lent;
pub mod make;
pub mod random;
pub mod rate;
pub mod receiver;
pub mod record;
pub mod ring;
pub mod session;
pub mod steps;
pub mod story;
pub mod table;
