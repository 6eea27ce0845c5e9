//! Plans a repair, and says what becomes of the image: `cargo run --example repair -- IMAGE`

use mirepillar::Plan;

fn main() -> std::io::Result<()> {
    let path = std::env::args().nth(1).expect("usage: repair IMAGE");
    let image = std::fs::read(path)?;
    let (mut plan, mut outcome) = (Plan::EMPTY, vec![0; image.len()]);
    let answered = mirepillar::repair(&image, &mut plan.0, &mut outcome);
    println!("{}; {} rows", answered.number, answered.rows);
    println!("once they have landed: {}", mirepillar::check(&outcome));
    Ok(())
}
