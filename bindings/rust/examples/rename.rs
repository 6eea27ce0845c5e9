//! Plans a rename as user 0 and shows its rows: `cargo run --example rename -- IMAGE OLD NEW`

use mirepillar::{Plan, Request};

fn main() -> std::io::Result<()> {
    let words: Vec<String> = std::env::args().collect();
    let [_, path, old, new] = words.as_slice() else { panic!("usage: rename IMAGE OLD NEW") };
    let image = std::fs::read(path)?;
    let mut plan = Plan::EMPTY;
    let answered = mirepillar::rename(&image, &Request::new(old.as_bytes(), new.as_bytes()), &mut plan.0);
    println!("{}", answered.number);
    for row in plan.rows() {
        println!("group {}: {} bytes at {}", row.group, row.body.len(), row.offset);
    }
    Ok(())
}
