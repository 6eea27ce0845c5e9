//! Checks image files: `cargo run --example check -- IMAGE...`

fn main() -> std::io::Result<()> {
    for path in std::env::args().skip(1) {
        println!("{path}: {}", mirepillar::check(&std::fs::read(&path)?));
    }
    Ok(())
}
