//! The commands: `write` makes the files of test vectors, `verify` compares the stored ones with fresh ones.

use mirepillar_reference::cases::{Collection, Part, ANSWERS, PARTS};
use std::collections::BTreeMap;
use std::path::{Path, PathBuf};
use std::process::ExitCode;

const USAGE: &str = "usage: mirepillar-reference write | verify";

/// The parts, made anew.
type Parts = Vec<(&'static Part, Collection)>;

/// Every file by its path in the repository, with what should stand in it.
fn files(parts: &Parts) -> BTreeMap<String, Vec<u8>> {
    let mut files = BTreeMap::new();
    for (part, collection) in parts {
        files.insert(format!("crates/vectors/data/{}", part.name), collection.writer.data.clone());
        files.entry(ANSWERS.to_string()).or_default().extend(collection.expected().into_bytes());
    }
    files
}

fn full_path(file: &str) -> PathBuf {
    Path::new(env!("CARGO_MANIFEST_DIR")).join("..").join(file)
}

fn write(parts: &Parts) -> Result<(), String> {
    for (file, contents) in files(parts) {
        let path = full_path(&file);
        let folder = path.parent().unwrap_or(&path);
        std::fs::create_dir_all(folder)
            .and_then(|()| std::fs::write(&path, contents))
            .map_err(|error| format!("{file} cannot be written: {error}"))?;
    }
    for (part, collection) in parts {
        println!("\n{}\n\n{}", part.name, collection.table().join("\n"));
    }
    Ok(())
}

fn verify(parts: &Parts) -> Result<(), String> {
    for (file, contents) in files(parts) {
        let stored = std::fs::read(full_path(&file)).map_err(|error| format!("{file} cannot be read: {error}"))?;
        if stored != contents {
            let same = stored.iter().zip(&contents).take_while(|(one, other)| one == other).count();
            return Err(format!("{file} is not what the model makes: they differ from byte {same} on"));
        }
    }
    Ok(())
}

fn main() -> ExitCode {
    let arguments: Vec<String> = std::env::args().skip(1).collect();
    let job = match arguments.iter().map(String::as_str).collect::<Vec<_>>()[..] {
        ["write"] => write,
        ["verify"] => verify,
        _ => {
            eprintln!("{USAGE}");
            return ExitCode::from(2);
        }
    };
    let parts: Parts = PARTS.iter().map(|part| (part, (part.make)())).collect();
    match job(&parts) {
        Ok(()) => {
            parts.iter().for_each(|(part, collection)| println!("{}: {} cases", part.name, collection.lines.len()));
            ExitCode::SUCCESS
        }
        Err(sentence) => {
            eprintln!("mirepillar-reference: {sentence}");
            ExitCode::from(1)
        }
    }
}
