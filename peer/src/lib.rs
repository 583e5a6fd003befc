//! A separate implementation of docs/RULES.md, one module for each of its sections, to compare with and to measure against.

#![forbid(unsafe_code)]

pub mod broadcast;
pub mod forward;
pub mod frame;
pub mod hall;
pub mod local;
pub mod plan;
pub mod ports;
pub mod random;
pub mod refusal;
pub mod report;
pub mod route;
pub mod sheet;
pub mod words;

#[cfg(test)]
mod any_input;
#[cfg(test)]
mod naive;
