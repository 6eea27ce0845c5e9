//! What the rules say, and nothing else: no case, no tree and no random number is known here.
//!
//! Numbers behind the word "rule" are those of docs/RULES.md.

pub mod check;
pub mod compare;
pub mod fault;
pub mod image;
pub mod land;
pub mod layout;
pub mod numbers;
pub mod permission;
pub mod plan;
pub mod refusal;
pub mod rename;
pub mod repair;
pub mod request;
pub mod walk;
