//! The program `oracle`. README.md lists its commands; src/cli.rs reads them.

fn main() -> std::process::ExitCode {
    let words: Vec<String> = std::env::args().skip(1).collect();
    match oracle::cli::run(&words) {
        Ok(()) => std::process::ExitCode::SUCCESS,
        Err(message) => {
            eprintln!("oracle: {message}");
            std::process::ExitCode::FAILURE
        }
    }
}
