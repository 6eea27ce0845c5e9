//! Every rule is broken by some case, and every refusal is some case's answer.

mod check;
mod flags;
mod land_and_repair;
pub mod order;
mod walk;
