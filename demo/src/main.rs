//! The program of a console's keeper.

use std::process::ExitCode;

fn main() -> ExitCode {
    demo::main()
}
