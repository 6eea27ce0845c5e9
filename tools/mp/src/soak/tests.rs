//! The soak on the proved jobs, and on a repair with a mistake, which it has to find and store.

use super::*;
use crate::explore::PROVED;
use mirepillar::Repaired;

/// A repair that is right until an exchange has to be finished.
fn wrong_repair(image: &[u8], plan: &mut [u8], scratch: &mut [u8]) -> Repaired {
    let answered = mirepillar::repair(image, plan, scratch);
    let pending = Image::read(image).map(|image| image.journal).unwrap_or_default();
    match pending.kind == crate::image::operation::EXCHANGE && pending.mark == 1 {
        true => Repaired { number: Number::NOT_REPAIRABLE, rows: 0 },
        false => answered,
    }
}

const WRONG: Jobs = Jobs { repair: wrong_repair, ..PROVED };

/// The first breach of a seed, with the images that it took.
fn first_breach(seed: u64) -> (Breach, Tally) {
    let (mut random, mut tally) = (Random::new(seed), Tally::default());
    loop {
        assert!(tally.images < 1000, "no exchange was explored on a thousand images");
        if let Some(breach) = one_image(&mut random, WRONG, &mut tally) {
            return (breach, tally);
        }
    }
}

#[test]
fn the_proved_jobs_have_no_breach_and_renames_of_all_kinds() {
    let (mut random, mut tally) = (Random::new(7), Tally::default());
    for _ in 0..150 {
        assert!(one_image(&mut random, PROVED, &mut tally).is_none());
    }
    assert!(tally.renames > 100 && tally.exchanges > 20, "{tally:?}");
}

#[test]
fn a_mistake_is_found_and_the_same_seed_finds_it_again() {
    let ((one, tally), (other, again)) = (first_breach(3), first_breach(3));
    assert!(one.found.breaches.iter().any(|(_, sentence)| sentence.contains("repair does not answer 0: 204")));
    assert_eq!((one.image, one.asked, tally), (other.image, other.asked, again));
}

#[test]
fn a_breach_is_stored_so_that_it_can_be_explored_again() {
    let (breach, _) = first_breach(3);
    let folder = std::env::temp_dir().join(format!("mp-breach-{}", std::process::id()));
    std::fs::create_dir_all(&folder).expect("a folder for the breach");
    let command = breach.store(&folder, 3).expect("the breach is stored");
    let [image, request] = ["img", "request"].map(|ending| folder.join(format!("breach-3.{ending}")));
    assert_eq!(command, format!("mp explore {} {} --exchange", image.display(), request.display()));
    let [image, request] = [image, request].map(|file| std::fs::read(file).expect("a file of the breach"));
    std::fs::remove_dir_all(&folder).expect("the folder is removed");
    let asked = Asked { flags: EXCHANGE, ..Asked::read(&request).expect("a request") };
    assert_eq!(asked, breach.asked);
    let found = explored(&image, &asked, WRONG, &mut Tally::default()).expect("the call has rows");
    assert_eq!(found.breaches, breach.found.breaches);
}
