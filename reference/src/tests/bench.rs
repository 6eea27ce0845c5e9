//! The images and renames that are measured are what they are said to be.

use crate::bench::bucket::bucket;
use crate::bench::images::{all, Measured};
use crate::bench::requests::{exchanges, renames, RENAMES};
use crate::cases::trees::builder::Tree;
use crate::model::check::check;
use crate::model::image::{DIRECTORY, FREE};
use crate::model::numbers::DONE;
use crate::model::walk::is_portable;
use std::collections::BTreeSet;
use std::sync::LazyLock;

const FULL_LEN: usize = 53_448;

/// Made once for all the tests.
static IMAGES: LazyLock<Vec<Measured>> = LazyLock::new(all);

fn of(name: &str) -> &'static Tree {
    &IMAGES.iter().find(|image| image.name == name).expect("an image of that name").tree
}

#[test]
fn every_image_is_consistent_and_no_record_is_free() {
    let smaller = IMAGES.iter().filter(|image| image.tree.encode().len() != FULL_LEN).map(|image| image.name);
    assert!(smaller.eq(["typical, a quarter", "typical, a sixteenth", "bench tree"]));
    for Measured { name, tree } in IMAGES.iter() {
        assert_eq!(check(&tree.encode()), DONE, "{name}");
        let free_slots = tree.entries.iter().filter(|entry| entry.is_free()).count();
        assert_eq!(free_slots, usize::from(*name == "bench tree"), "{name}");
        assert!(tree.inodes.iter().all(|inode| inode.kind != FREE), "{name}");
        assert!(tree.texts.iter().all(|text| !text.is_empty()), "{name}");
        assert!(tree.handles.iter().all(|handle| handle.state != 0), "{name}");
    }
}

#[test]
fn wide_images_have_every_name_in_root() {
    for image in IMAGES.iter().filter(|image| image.name.starts_with("wide")) {
        assert!(image.tree.entries.iter().all(|entry| entry.parent == 0), "{}", image.name);
    }
    let entries = &of("wide, in one bucket").entries;
    assert_eq!(entries.iter().map(|entry| bucket(entry.parent, &entry.name)).collect::<BTreeSet<_>>().len(), 1);
    assert!(entries.iter().all(|entry| entry.name.iter().all(is_portable)));
}

#[test]
fn chains_rise_and_fall() {
    for (name, rises) in [("chain, rising", true), ("chain, falling", false)] {
        let tree = of(name);
        let below_root: Vec<_> = tree.entries.iter().filter(|entry| entry.parent != 0).collect();
        let chain: Vec<_> = below_root.iter().filter(|entry| tree.kind(entry.target) == DIRECTORY).collect();
        assert_eq!(chain.len(), 399);
        assert!(chain.iter().all(|entry| (entry.parent < entry.target) == rises), "{name}");
        assert!(below_root.is_sorted_by_key(|entry| entry.parent), "{name}");
    }
}

#[test]
fn full_images_have_a_thousand_different_renames_and_exchanges() {
    for name in ["typical", "wide", "chain, rising"] {
        for requests in [renames(of(name)), exchanges(of(name))] {
            let different: BTreeSet<_> =
                requests.iter().map(|request| (&request.old.path, &request.new.path)).collect();
            assert_eq!(different.len(), RENAMES, "{name}");
        }
    }
}

#[test]
fn renames_in_a_chain_have_long_paths() {
    let requests = renames(of("chain, falling"));
    assert!(requests.iter().all(|request| request.old.path.len().min(request.new.path.len()) > 120));
    assert!(requests.iter().any(|request| request.new.path.len() > 250));
}
