//! Answers a sheet of requests: `machine sheet < REQUESTS` over 64 empty places, `machine image FILE < REQUESTS` over an image,
//! which is written to FILE.after.

use model::image::Image;
use model::machine::Machine;
use model::proper::ARITIES;
use model::sheet;
use model::store::{TABLE, Table};
use std::io::{self, Read, Write};
use std::process::ExitCode;

fn requests() -> io::Result<Vec<u8>> {
    let mut bytes = Vec::new();
    io::stdin().read_to_end(&mut bytes)?;
    Ok(bytes)
}

fn over_table() -> io::Result<ExitCode> {
    let mut machine = Machine::new(Table::new(TABLE).expect("a length of a table"));
    io::stdout().write_all(&sheet::answer(&mut machine, &requests()?))?;
    Ok(ExitCode::SUCCESS)
}

fn over_image(file: &str) -> io::Result<ExitCode> {
    match Image::open(&ARITIES, &std::fs::read(file)?) {
        Err(refused) => {
            println!("{refused}");
            Ok(ExitCode::FAILURE)
        }
        Ok(image) => {
            let mut machine = Machine::new(image);
            io::stdout().write_all(&sheet::answer(&mut machine, &requests()?))?;
            std::fs::write(format!("{file}.after"), machine.store.bytes())?;
            Ok(ExitCode::SUCCESS)
        }
    }
}

fn main() -> ExitCode {
    let args: Vec<String> = std::env::args().skip(1).collect();
    let words: Vec<&str> = args.iter().map(String::as_str).collect();
    let done = match words.as_slice() {
        ["sheet"] => over_table(),
        ["image", file] => over_image(file),
        _ => {
            eprintln!("usage: machine sheet < REQUESTS, or machine image FILE < REQUESTS");
            return ExitCode::from(2);
        }
    };
    done.unwrap_or_else(|error| {
        eprintln!("machine: {error}");
        ExitCode::from(2)
    })
}
