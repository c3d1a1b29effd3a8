//! The vectors: binary cases for a program that reads them on standard input, and the text it must
//! print.
//!
//! All numbers of a case are little endian, 4 bytes unless said. Kind 1, table match: m, n, hold,
//! the number of counts, then the counts of 2 bytes each, and 2 bytes of 0 more if their number is
//! odd. Kind 2, weighted match: m, n, 32 rows, 32 input weights, 32 output weights. Kind 3, rank
//! form: the same as kind 2.
//!
//! Each case has one line: `M`, refusal, size, weight and 32 partners; or for a rank form `K`,
//! refusal, 32 rows, 32 input ranks and 32 output ranks. Numbers are decimal, one space between.

use crate::cases::{all, Problem};
use crate::matching::{rank_form, table_match, weighted_match, Match, RankForm, Requests};
use crate::replay::replay;
use crate::samples::{all as all_samples, example, log_of, small_runs, Sample};
use std::fs;
use std::io;
use std::path::Path;

/// The most bytes of the file of cases.
const MOST_BYTES: usize = 60_000;

/// Writes what each of the gate's programs reads and must print, below this directory: `bench` the
/// cases, `replay` the worked example, and `replays` all sample logs. Answers a line for each.
pub fn write(directory: &Path) -> io::Result<String> {
    let cases = case_bytes();
    assert!(
        cases.len() <= MOST_BYTES,
        "the cases are longer than their limit"
    );
    let example = log_of(&example());
    let text = replay(&example);
    Ok([
        write_program(&directory.join("bench"), &cases, &case_lines())?,
        write_program(&directory.join("replay"), &example, &text)?,
        write_program(&directory.join("replays"), &sample_bytes(), &sample_lines())?,
    ]
    .concat())
}

fn write_program(directory: &Path, input: &[u8], text: &str) -> io::Result<String> {
    fs::create_dir_all(directory)?;
    fs::write(directory.join("stdin"), input)?;
    fs::write(directory.join("stdout"), text)?;
    let (read, written) = (input.len(), text.len());
    Ok(format!(
        "{}: stdin {read} bytes, stdout {written} bytes\n",
        directory.display()
    ))
}

/// Writes each small sample log that is run into the directory, and its replay beside it.
pub fn write_samples(directory: &Path) -> io::Result<String> {
    fs::create_dir_all(directory)?;
    let samples = small_runs();
    for sample in &samples {
        fs::write(directory.join(format!("{}.log", sample.name)), &sample.log)?;
        let text = replay(&sample.log);
        fs::write(directory.join(format!("{}.txt", sample.name)), text)?;
    }
    Ok(format!("{} logs with their replays\n", samples.len()))
}

/// All sample logs, each behind its length.
fn sample_bytes() -> Vec<u8> {
    let behind_length = |sample: &Sample| {
        let length = sample.log.len() as u32;
        [length.to_le_bytes().to_vec(), sample.log.clone()].concat()
    };
    all_samples().iter().flat_map(behind_length).collect()
}

fn sample_lines() -> String {
    all_samples()
        .iter()
        .map(|sample| replay(&sample.log))
        .collect()
}

/// All cases as bytes.
pub fn case_bytes() -> Vec<u8> {
    all()
        .iter()
        .flat_map(|case| bytes_of(&case.problem))
        .collect()
}

/// The lines of all cases.
pub fn case_lines() -> String {
    all().iter().map(|case| line_of(&case.problem)).collect()
}

fn bytes_of(problem: &Problem) -> Vec<u8> {
    match problem {
        Problem::Table { m, n, hold, counts } => table_bytes([1, *m, *n, *hold], counts),
        Problem::Weighted { m, n, requests } => request_bytes([2, *m, *n], requests),
        Problem::Rank { m, n, requests } => request_bytes([3, *m, *n], requests),
    }
}

fn table_bytes(head: [u32; 4], counts: &[u16]) -> Vec<u8> {
    let mut bytes = number_bytes(&head);
    bytes.extend((counts.len() as u32).to_le_bytes());
    bytes.extend(counts.iter().flat_map(|count| count.to_le_bytes()));
    if counts.len() % 2 == 1 {
        bytes.extend([0, 0]);
    }
    bytes
}

fn request_bytes(head: [u32; 3], requests: &Requests) -> Vec<u8> {
    let fields = [
        &head[..],
        &requests.rows,
        &requests.inputs,
        &requests.outputs,
    ];
    number_bytes(&fields.concat())
}

fn number_bytes(numbers: &[u32]) -> Vec<u8> {
    numbers
        .iter()
        .flat_map(|number| number.to_le_bytes())
        .collect()
}

fn line_of(problem: &Problem) -> String {
    match problem {
        Problem::Table { m, n, hold, counts } => match_line(&table_match(*m, *n, counts, *hold)),
        Problem::Weighted { m, n, requests } => match_line(&weighted_match(*m, *n, requests)),
        Problem::Rank { m, n, requests } => rank_line(&rank_form(*m, *n, requests)),
    }
}

fn match_line(answer: &Match) -> String {
    let head = [answer.refusal, answer.size, answer.weight];
    line('M', &[&head[..], &answer.partners.map(u32::from)].concat())
}

fn rank_line(answer: &RankForm) -> String {
    let ranks = &answer.ranks;
    let fields = [
        &[answer.refusal][..],
        &ranks.rows,
        &ranks.inputs,
        &ranks.outputs,
    ];
    line('K', &fields.concat())
}

fn line(letter: char, numbers: &[u32]) -> String {
    let fields = numbers.iter().map(|number| format!(" {number}"));
    format!("{letter}{}\n", fields.collect::<String>())
}
