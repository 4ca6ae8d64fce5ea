//! Measures the proved library and plain Rust on named workloads, what reducing
//! gains, and the stack that each call needs.

mod measure;
mod stack;
mod tables;
mod text;
mod workloads;

use std::env;
use std::process::ExitCode;

use measure::Effort;

fn main() -> ExitCode {
    let arguments: Vec<String> = env::args().skip(1).collect();
    let effort = match arguments.as_slice() {
        [] => Effort::FULL,
        [option] if option == "--quick" => Effort::QUICK,
        _ => {
            eprintln!("usage: bench [--quick]");
            return ExitCode::from(2);
        }
    };
    let workloads = workloads::all();
    tables::list(&workloads);
    tables::times(&workloads, effort);
    let [forms, reduced] = workloads.last_chunk().expect("joined forms, and these reduced");
    tables::gains(forms, reduced, effort);
    tables::stacks(&workloads, effort);
    ExitCode::SUCCESS
}
