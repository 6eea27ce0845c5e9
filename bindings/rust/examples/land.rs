//! Lands all rows of a plan on an image in memory: `cargo run --example land -- IMAGE PLAN`
//!
//! On a disk a sync has to stand between two groups; examples/records.h shows that.

fn main() -> std::io::Result<()> {
    let words: Vec<String> = std::env::args().collect();
    let [_, image, plan] = words.as_slice() else { panic!("usage: land IMAGE PLAN") };
    let (mut image, plan) = (std::fs::read(image)?, std::fs::read(plan)?);
    for row in 0..mirepillar::PLAN_ROWS as u64 {
        let answered = mirepillar::land(&mut image, &plan, row);
        if !answered.is_done() {
            break;
        }
        println!("row {row} has landed");
    }
    println!("the image is now: {}", mirepillar::check(&image));
    Ok(())
}
