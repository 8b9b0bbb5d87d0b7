//! The program; all of it is in the library (see src/lib.rs).

fn main() -> std::process::ExitCode {
    compare::main()
}
