//! The program `mp`.

use std::process::ExitCode;

fn main() -> ExitCode {
    mp::commands::main(std::env::args_os().skip(1).collect())
}
