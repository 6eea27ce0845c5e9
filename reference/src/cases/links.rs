//! Walk and rename cases about the number of symlinks in one path: up to forty are followed.

pub mod again;
pub mod chains;
pub mod lengths;
pub mod neighbours;
pub mod pairs;
pub mod part;
pub mod random_paths;
pub mod random_trees;
pub mod renames;

use crate::cases::walk::probes::{Probe, Table};

/// Symlinks that one path may lead through, told here and not taken from the model.
const MOST: usize = 40;

fn probes() -> Vec<Probe> {
    let tables: [Table; 10] = [
        again::one_symlink(),
        chains::chains(),
        chains::several_in_a_text(),
        chains::loops(),
        again::again_and_chained(),
        neighbours::final_symlinks(),
        neighbours::behind_the_fortieth(),
        neighbours::at_the_forty_first(),
        lengths::joined_lengths(),
        lengths::longest_walks(),
    ];
    tables.into_iter().flat_map(|table| table.probes).collect()
}
