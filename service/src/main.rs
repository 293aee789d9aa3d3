//! The program `totxegun`.

fn main() -> std::process::ExitCode {
    totxegun::command::run()
}
