//! Time per match: the library beside the textbook assignment, on the same tables.

use super::lent::accepted;
use super::page::{beside, grouped, table};
use super::time::{batch, in_turns, same_answers, Taken};
use crate::card::PORTS;
use crate::hungarian;
use crate::library;
use crate::matching::{table_requests, Requests};
use crate::random::Random;

/// Samples of each row.
const SAMPLES: usize = 1_000;
/// Ports, and the tables of one sample: a single small match is too short for the clock.
const SIZES: [(u32, usize); 3] = [(8, 16), (16, 4), (32, 1)];
/// Filled places of a hundred.
const FILLS: [u32; 3] = [10, 50, 100];
/// The greatest count of a filled place.
const MOST: u32 = 64;

const TITLES: [&str; 10] = [
    "match",
    "filled (%)",
    "matches per sample",
    "library (µs): median",
    "99th",
    "worst",
    "Hungarian (µs): median",
    "99th",
    "worst",
    "library / Hungarian",
];

/// All rows as text. An error where the two sides find different weights.
pub fn run() -> Result<String, String> {
    let mut random = Random::seeded(11);
    let mut rows = Vec::new();
    for (ports, per_sample) in SIZES {
        for fill in FILLS {
            rows.push(table_row(&mut random, ports, per_sample, fill)?);
        }
    }
    rows.push(weights_row(&mut random)?);
    let said = format!(
        "## Time per match\n\n\
         {} samples a row, filled places with counts of 1 to {MOST}. The totals R and C are computed from the counts on both sides; the\n\
         weighted match is given them. The library finds the heaviest match that is first in dictionary order, the Hungarian any\n\
         heaviest one. The weights found are equal at every match.\n\n",
        grouped(SAMPLES)
    );
    Ok(said + &table(&TITLES, &rows))
}

fn table_row(
    random: &mut Random,
    ports: u32,
    per_sample: usize,
    fill: u32,
) -> Result<Vec<String>, String> {
    let made = |_| random.table(ports * ports, fill, MOST);
    let tables: Vec<Vec<u16>> = (0..SAMPLES * per_sample).map(made).collect();
    let library = |counts: &Vec<u16>| library_weight(ports, counts);
    let textbook = |counts: &Vec<u16>| hungarian::table_match(ports, ports, counts, 0).weight;
    let taken = side_by_side(&tables, per_sample, library, textbook)?;
    let name = format!("table, {ports} × {ports}");
    Ok(fields(name, fill, per_sample, &taken))
}

fn weights_row(random: &mut Random) -> Result<Vec<String>, String> {
    let (ports, fill) = (PORTS as u32, 50);
    let made = |_| table_requests(ports, ports, &random.table(ports * ports, fill, MOST), 0);
    let requests: Vec<Requests> = (0..SAMPLES).map(made).collect();
    let textbook = |requests: &Requests| hungarian::heaviest(ports, ports, requests).weight;
    let taken = side_by_side(&requests, 1, library_weighted, textbook)?;
    let name = format!("weights, {ports} × {ports}");
    Ok(fields(name, fill, 1, &taken))
}

/// The weight that the library finds for this table.
fn library_weight(ports: u32, counts: &[u16]) -> u32 {
    let (mut partners, mut totals) = ([0; PORTS], [0; 2]);
    accepted(library::match_table(
        ports,
        ports,
        counts,
        0,
        &mut partners,
        &mut totals,
    ));
    totals[1]
}

/// The weight that the library finds for these requests of a full card.
fn library_weighted(requests: &Requests) -> u32 {
    let (mut partners, mut totals) = ([0; PORTS], [0; 2]);
    accepted(library::match_weights(
        PORTS as u32,
        PORTS as u32,
        &requests.rows,
        &requests.inputs,
        &requests.outputs,
        &mut partners,
        &mut totals,
    ));
    totals[1]
}

fn side_by_side<P>(
    problems: &[P],
    per_sample: usize,
    library: impl Fn(&P) -> u32,
    textbook: impl Fn(&P) -> u32,
) -> Result<Vec<Taken>, String> {
    let of = |sample: usize| &problems[sample * per_sample..][..per_sample];
    let mut by_library = |sample| batch(of(sample), &library);
    let mut by_textbook = |sample| batch(of(sample), &textbook);
    let samples = problems.len() / per_sample;
    let taken = in_turns(samples, &mut [&mut by_library, &mut by_textbook]);
    same_answers("weights of a match", &taken[0], &taken[1])?;
    Ok(taken)
}

fn fields(name: String, fill: u32, per_sample: usize, taken: &[Taken]) -> Vec<String> {
    let mut fields = vec![name, fill.to_string(), per_sample.to_string()];
    fields.extend(beside(taken));
    fields
}
