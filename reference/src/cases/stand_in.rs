//! A portable stand-in for new's final name, for generators that chose their cases before that name had to be portable.
//!
//! They choose by the model's answer, and what they have chosen is to stay. So they ask for the answer that rule 53a
//! does not touch: with a name that stands nowhere else put for the final one, wherever that stands. All other rules
//! ask whether names are equal and how long they are, and answer as before.

use crate::cases::portable::PORTABLE;
use crate::model::layout::{Layout, ENTRIES, TEXTS};
use crate::model::request::{Operand, Request};
use std::ops::Range;

/// A consistent image and a request with the stand-in; the same ones where new has no final name.
pub fn with_stand_in(image: &[u8], request: &Request) -> (Vec<u8>, Request) {
    let Some(name) = final_name(&request.new.path) else {
        return (image.to_vec(), request.clone());
    };
    let places = names_and_texts(image);
    let in_image = places.iter().flat_map(|place| components(&image[place.clone()]));
    let in_paths = components(&request.old.path).chain(components(&request.new.path));
    let taken: Vec<&[u8]> = in_image.chain(in_paths).collect();
    let mut same_length = PORTABLE.iter().filter(|&&byte| byte != b'.').map(|&byte| vec![byte; name.len()]);
    let stand_in = same_length.find(|other| !taken.contains(&&other[..])).expect("some name is free");
    let mut renamed = image.to_vec();
    for place in places {
        renamed[place.clone()].copy_from_slice(&exchanged(&image[place], name, &stand_in));
    }
    let operand = |operand: &Operand| Operand::new(operand.start, &exchanged(&operand.path, name, &stand_in));
    (renamed, Request { old: operand(&request.old), new: operand(&request.new), ..request.clone() })
}

/// The name at the end of a path; nothing where it has none, or one that means a directory.
pub fn final_name(path: &[u8]) -> Option<&[u8]> {
    components(path).last().filter(|name| ![&b"."[..], b".."].contains(name))
}

fn components(path: &[u8]) -> impl Iterator<Item = &[u8]> {
    path.split(|&byte| byte == b'/').filter(|name| !name.is_empty())
}

/// Where the names of an image stand, and the texts of its symlinks.
fn names_and_texts(image: &[u8]) -> Vec<Range<usize>> {
    let layout = Layout::read(image).expect("the layout is right");
    let places = |section: usize, len_at: usize, start: usize| {
        let records = (0..layout.counts[section]).map(|record| layout.position(section, record)).collect::<Vec<_>>();
        records.into_iter().map(move |at| at + start..at + start + usize::from(image[at + len_at]))
    };
    places(ENTRIES, 4, 8).chain(places(TEXTS, 0, 1)).collect()
}

/// The path with one component exchanged for another of its length.
fn exchanged(path: &[u8], name: &[u8], stand_in: &[u8]) -> Vec<u8> {
    let exchange = |component| if component == name { stand_in } else { component };
    path.split(|&byte| byte == b'/').map(exchange).collect::<Vec<_>>().join(&b'/')
}

#[cfg(test)]
mod tests {
    use super::*;
    use crate::cases::rename::request;
    use crate::cases::trees::bench::bench_tree;
    use crate::cases::trees::builder::Entry;

    #[test]
    fn a_name_is_exchanged_wherever_it_stands() {
        let mut tree = bench_tree();
        tree.entries[0] = Entry::new(0, 1, b"~");
        tree.texts[0] = b"~".to_vec();
        let (image, changed) = with_stand_in(&tree.encode(), &request("/~/f", "//b/~/"));
        tree.entries[0] = Entry::new(0, 1, b"A");
        tree.texts[0] = b"A".to_vec();
        assert_eq!((image, changed), (tree.encode(), request("/A/f", "//b/A/")));
    }

    #[test]
    fn a_stand_in_stands_nowhere_else() {
        let tree = bench_tree();
        let (_, changed) = with_stand_in(&tree.encode(), &request("/A/f", "/B/~"));
        assert_eq!(changed, request("/A/f", "/B/C"));
        for unnamed in [request("/a", "//"), request("/a", "/b/.."), request("/.", "./")] {
            assert_eq!(with_stand_in(&tree.encode(), &unnamed), (tree.encode(), unnamed));
        }
    }
}
