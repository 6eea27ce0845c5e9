//! Tests that need both the model, which knows of no case, and the cases.

mod bench;
mod compare;
mod crowded;
mod effects;
mod exchange;
mod groups;
mod links;
mod made;
mod model;
mod plain;
mod portable;
mod report;
mod rules;
mod sticky;
mod vectors;
