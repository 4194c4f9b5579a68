//! The five questions, written from their scope and the published sources alone, and the reading of typed text, written
//! from docs/GRAMMAR.md.
//!
//! A message is the number of a shared tree ([`terms`]); what the intruder can build is found by saturating over
//! messages ([`building`]); equality by a textbook unifier ([`unifying`]); a run by the published lazy intruder
//! ([`lazy`]) and by trying every permitted value list ([`brute`]). [`questions`] puts the replies together.
//! [`searches`] asks all of them of one run. [`plain`] answers all but the run a second time in another way, so that the two can be
//! held against each other. Typed text is read by an automaton with a stack ([`typed`]), and a second time by the productions of its grammar
//! ([`grammar`]).

#![forbid(unsafe_code)]

pub mod brute;
pub mod building;
pub mod casefile;
pub mod grammar;
pub mod lazy;
pub mod plain;
pub mod questions;
pub mod reducing;
pub mod searches;
pub mod terms;
pub mod typed;
pub mod unifying;
