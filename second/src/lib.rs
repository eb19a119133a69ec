//! The second program: a store of sheets, written from document 01 and the requests of document 02 that have
//! landed, to hold the first program to.

#![forbid(unsafe_code)]

pub mod call;
pub mod gate;
pub mod grid;
pub mod list;
pub mod print;
pub mod refusal;
pub mod route;
pub mod rules;
pub mod setup;
pub mod sizes;
pub mod store;
pub mod text;

#[cfg(test)]
mod cases;
#[cfg(test)]
mod houses;
#[cfg(test)]
mod marks;
