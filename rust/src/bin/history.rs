//! Checks a printed sheet: `history REQUESTS ANSWERS`. It ends with status 1 if no serial order gives these answers.

use std::process::ExitCode;

fn main() -> ExitCode {
    let args: Vec<String> = std::env::args().skip(1).collect();
    let [requests, answers] = args.as_slice() else {
        eprintln!("usage: history REQUESTS ANSWERS");
        return ExitCode::from(2);
    };
    let (requests, answers) = match (std::fs::read(requests), std::fs::read(answers)) {
        (Ok(requests), Ok(answers)) => (requests, answers),
        (Err(error), _) | (_, Err(error)) => {
            eprintln!("history: {error}");
            return ExitCode::from(2);
        }
    };
    match model::history::check(&requests, &answers) {
        Ok(s) => {
            println!("serial: {} committed transactions with {} looks and {} surveys, {} open", s.committed, s.looks, s.surveys, s.open);
            ExitCode::SUCCESS
        }
        Err(why) => {
            println!("not serial: {why}");
            ExitCode::FAILURE
        }
    }
}
