//! Compares the proved program `modelbase` with the rules on generated images: `compare_images [COUNT [SEED [PROGRAM]]]`.
//! COUNT is the number of images; PROGRAM (or the variable MODELBASE) is where the program lies, by default crates/NAME/out/NAME of the
//! repository. `PROGRAM run FILE` reads requests, prints answers and leaves the changed image in FILE. A refused image stays as it was,
//! and what is printed says 'refused with' its number, 'at line' and 'field'. It ends with status 1 at the first difference, and keeps the
//! input. The word `rules` for PROGRAM runs the rules alone.

use model::draw::Draw;
use model::image::{Image, Refused};
use model::machine::Machine;
use model::programs::{self, Printed};
use model::proper::ARITIES;
use model::{images, sheet, sheets};
use std::collections::BTreeMap;
use std::io;
use std::path::{Path, PathBuf};
use std::process::ExitCode;

/// What the rules say: the answers and the image after, or the refusal.
type Outcome = Result<(Vec<u8>, Vec<u8>), Refused>;

fn rules(image: &[u8], requests: &[u8]) -> Outcome {
    let mut machine = Machine::new(Image::open(&ARITIES, image)?);
    let answers = sheet::answer(&mut machine, requests);
    Ok((answers, machine.store.bytes()))
}

fn numbers(refused: Refused) -> Vec<usize> {
    match refused {
        Refused::Length => vec![40],
        Refused::Line { line, field } => vec![41, line, field],
        Refused::Twice { line } => vec![42, line],
    }
}

/// The number that stands behind these words in the text.
fn number_after(text: &str, words: &str) -> Option<usize> {
    let rest = &text[text.find(words)? + words.len()..];
    rest.split(|c: char| !c.is_ascii_digit()).next()?.parse().ok()
}

/// The refusal's number, line and field in what the program said to either output.
fn printed_numbers(printed: &Printed) -> Vec<usize> {
    let text = String::from_utf8_lossy(if printed.bytes.is_empty() { &printed.errors } else { &printed.bytes }).into_owned();
    ["refused with ", "at line ", "field "].iter().filter_map(|words| number_after(&text, words)).collect()
}

/// What is wrong with what the program did, if anything is.
fn fault(program: &Path, file: &Path, image: &[u8], requests: &[u8], expected: &Outcome) -> io::Result<Option<String>> {
    std::fs::write(file, image)?;
    let printed = programs::run(program, &[Path::new("run"), file], requests)?;
    let after = std::fs::read(file)?;
    if printed.status.is_none() {
        return Ok(Some("its end: a signal ended it".to_string()));
    }
    Ok(match expected {
        Ok((answers, image_after)) => programs::first_difference(answers, &printed.bytes)
            .or_else(|| programs::first_difference(image_after, &after).map(|why| format!("the image after, {why}"))),
        Err(refused) if printed_numbers(&printed) != numbers(*refused) => {
            Some(format!("the refusal: {refused}\n  proved {}", printed.errors.escape_ascii()))
        }
        Err(_) => (after != image).then(|| "the image, which it changed though it refused".to_string()),
    })
}

fn compare(count: u64, seed: u64, program: Option<&Path>) -> io::Result<ExitCode> {
    let mut draw = Draw::new(seed);
    let mut outcomes: BTreeMap<usize, u64> = BTreeMap::new();
    let file = std::env::temp_dir().join(format!("pilmoert-image-{}", std::process::id()));
    for i in 0..count {
        let image = if draw.chance(50) { images::valid(&mut draw) } else { images::damaged(&mut draw) };
        let requests = sheets::short_sheet(&mut draw);
        let expected = rules(&image, &requests);
        *outcomes.entry(expected.as_ref().map_or_else(|refused| numbers(*refused)[0], |_| 0)).or_default() += 1;
        let Some(program) = program else { continue };
        if let Some(why) = fault(program, &file, &image, &requests, &expected)? {
            let (image, requests) = (programs::keep("image.txt", &image)?, programs::keep("image-requests.txt", &requests)?);
            println!("image {i} differs in {why}\nkept: {} with the requests {}", image.display(), requests.display());
            return Ok(ExitCode::FAILURE);
        }
    }
    if program.is_some() {
        std::fs::remove_file(&file)?;
    }
    let outcomes: Vec<String> = outcomes.iter().map(|(number, count)| format!("{number}: {count}")).collect();
    println!("{count} images agree; openings by number: {}", outcomes.join(", "));
    Ok(ExitCode::SUCCESS)
}

fn main() -> ExitCode {
    let mut args = std::env::args().skip(1);
    let mut number = |default: u64| args.next().map_or(Some(default), |word| word.parse().ok());
    let (Some(count), Some(seed)) = (number(1_000), number(1)) else {
        eprintln!("usage: compare_images [COUNT [SEED [PROGRAM]]]");
        return ExitCode::from(2);
    };
    let program: PathBuf = programs::place(args.next(), "MODELBASE", "modelbase");
    let alone = program == Path::new("rules");
    if !alone && !program.is_file() {
        eprintln!("compare_images: there is no program {}; `rt check modelbase` builds it", program.display());
        return ExitCode::from(2);
    }
    compare(count, seed, (!alone).then_some(&program)).unwrap_or_else(|error| {
        eprintln!("compare_images: {error}");
        ExitCode::from(2)
    })
}
