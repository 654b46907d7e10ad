//! The command `kadvitul`.

use std::process::ExitCode;

fn main() -> ExitCode {
    host::cli::main()
}
