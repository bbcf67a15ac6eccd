//! The second program's parts: what answers on its own, what asks the core, what compares.
//! Public is what another program can use; [`core`] is the core for Rust programs.

#![deny(unsafe_code)]

mod check;
pub mod code;
mod compare;
mod compare_queries;
pub mod comparison;
pub mod containment;
#[allow(unsafe_code)]
pub mod core;
mod counts;
mod draft;
mod families;
mod judge;
mod meaning;
mod options;
mod parts;
mod queries;
mod query;
pub mod quick;
pub mod quick_query;
mod random;
pub mod refusal;
mod report;
mod report_queries;
pub mod sheet;
mod shrink;
mod shrink_query;
pub mod suspects;
mod walk;
