//! The soak: logs of many card sizes through both schedulers, for as long as asked. A card starts
//! fresh and goes through one or more logs; all that happens to it follows from its own seed, so
//! that a card on which something differed can be run again alone.

mod logs;
mod pair;
mod traffic;

use crate::card::{depth_fits, ports_fit};
use crate::log::Slots;
use crate::random::Random;
use pair::Pair;
use std::collections::BTreeSet;
use std::time::{Duration, Instant};
use traffic::Traffic;

/// The time between two lines of progress.
const PROGRESS: Duration = Duration::from_secs(5);
/// So many of a hundred slots have a refused call before them.
const REFUSED: u32 = 5;
/// The most logs that one card goes through.
const LOGS: u32 = 5;

/// When the soak ends.
#[derive(Clone, Copy)]
enum Until {
    Seconds(u64),
    Slots(u64),
    OneCard,
}

/// What was asked for: the end, the seed, and one size for all cards where it is given.
#[derive(Clone, Copy)]
struct Asked {
    until: Until,
    seed: u64,
    size: Option<[u32; 3]>,
}

/// What has been done so far.
struct Soak {
    asked: Asked,
    start: Instant,
    spoken: Instant,
    card: u64,
    slots: u64,
    logs: u64,
    full: u64,
    drops: u64,
    refused: u64,
    sizes: BTreeSet<[u32; 3]>,
}

/// Reads the words and runs; true when nothing differed, nothing where the words are wrong.
pub fn command(words: &[&str]) -> Option<bool> {
    let (kind, rest) = match words {
        ["slots", rest @ ..] => ("slots", rest),
        ["one", rest @ ..] => ("one", rest),
        rest => ("seconds", rest),
    };
    let numbers: Result<Vec<u64>, _> = rest.iter().map(|word| word.parse()).collect();
    let asked = match (kind, &numbers.ok()?[..]) {
        ("seconds", [seconds]) => asked(Until::Seconds(*seconds), 1, None),
        ("seconds", [seconds, seed]) => asked(Until::Seconds(*seconds), *seed, None),
        ("slots", [count]) => asked(Until::Slots(*count), 1, None),
        ("slots", [count, seed]) => asked(Until::Slots(*count), *seed, None),
        ("slots", [count, size @ ..]) if size.len() == 3 => {
            asked(Until::Slots(*count), 1, Some(size_of(size)?))
        }
        ("slots", [count, seed, size @ ..]) => {
            asked(Until::Slots(*count), *seed, Some(size_of(size)?))
        }
        ("one", [seed]) => asked(Until::OneCard, *seed, None),
        ("one", [seed, size @ ..]) => asked(Until::OneCard, *seed, Some(size_of(size)?)),
        _ => return None,
    };
    let ends_at_once = matches!(asked.until, Until::Seconds(0) | Until::Slots(0));
    (!ends_at_once).then(|| Soak::new(asked).run())
}

fn asked(until: Until, seed: u64, size: Option<[u32; 3]>) -> Asked {
    Asked { until, seed, size }
}

/// A card within its limits.
fn size_of(words: &[u64]) -> Option<[u32; 3]> {
    let numbers: Vec<u32> = words.iter().flat_map(|word| u32::try_from(*word)).collect();
    let [m, n, d]: [u32; 3] = numbers.try_into().ok()?;
    (ports_fit(m, n) && depth_fits(d)).then_some([m, n, d])
}

impl Soak {
    fn new(asked: Asked) -> Soak {
        Soak {
            asked,
            start: Instant::now(),
            spoken: Instant::now(),
            card: asked.seed,
            slots: 0,
            logs: 0,
            full: 0,
            drops: 0,
            refused: 0,
            sizes: BTreeSet::new(),
        }
    }

    fn run(mut self) -> bool {
        let seed = self.asked.seed;
        let well = match self.asked.until {
            Until::OneCard => self.one_card(seed),
            _ => self.cards(Random::seeded(seed)),
        };
        println!("{}", self.last_line(well));
        well
    }

    /// Card after card, each with its own seed, until the end or a difference.
    fn cards(&mut self, mut seeds: Random) -> bool {
        let mut well = true;
        while well && !self.is_over() {
            well = self.one_card(seeds.next());
        }
        well
    }

    fn is_over(&self) -> bool {
        match self.asked.until {
            Until::Seconds(seconds) => self.start.elapsed() >= Duration::from_secs(seconds),
            Until::Slots(count) => self.slots >= count,
            Until::OneCard => false,
        }
    }

    /// All logs of one card; a difference is printed.
    fn one_card(&mut self, seed: u64) -> bool {
        self.card = seed;
        let mut random = Random::seeded(seed);
        let size = self.asked.size;
        let card = size.unwrap_or_else(|| traffic::card(&mut random));
        self.sizes.insert(card);
        match self.logs_of(&mut random, card) {
            Ok(()) => true,
            Err(text) => {
                self.differs(card, &text);
                false
            }
        }
    }

    fn logs_of(&mut self, random: &mut Random, card: [u32; 3]) -> Result<(), String> {
        let mut pair = Pair::start(random, card)?;
        let mut traffic = Traffic::on(card);
        let many = random.between(1, LOGS);
        for log in 1..=random.choose(&[1, many]) {
            if self.is_over() {
                break;
            }
            self.logs += 1;
            self.full += u64::from(card[..2] == [32, 32]);
            let run = self.one_log(random, &mut pair, &mut traffic);
            run.map_err(|text| format!("log {log} of the card, {text}"))?;
        }
        Ok(())
    }

    /// Writes one log, and runs what is read back of it.
    fn one_log(
        &mut self,
        random: &mut Random,
        pair: &mut Pair,
        traffic: &mut Traffic,
    ) -> Result<(), String> {
        let slots = traffic.log(random);
        let count = slots.holds.len() as u32;
        let log = logs::written(random, &slots)?;
        let log = logs::behind_banner(random, log);
        logs::same_check(&log)?;
        logs::refused_read(&log, count)?;
        self.refused += 2;
        for slot in 0..count {
            if self.is_over() {
                break;
            }
            let run = self.one_slot(random, pair, (&log, &slots), slot);
            run.map_err(|text| format!("slot {slot} of the log: {text}"))?;
        }
        Ok(())
    }

    fn one_slot(
        &mut self,
        random: &mut Random,
        pair: &mut Pair,
        (log, slots): (&[u8], &Slots),
        slot: u32,
    ) -> Result<(), String> {
        let (hold, arrivals) = logs::read_slot(log, slots, slot)?;
        if random.percent(REFUSED) {
            pair.refused(random, hold, &arrivals)?;
            self.refused += 1;
        }
        self.drops += u64::from(pair.step(hold, &arrivals)?);
        self.slots += 1;
        if self.spoken.elapsed() >= PROGRESS {
            self.spoken = Instant::now();
            eprintln!("{}, at card seed {}", self.so_far(), self.card);
        }
        Ok(())
    }

    fn differs(&self, card: [u32; 3], text: &str) {
        let (seed, [m, n, d]) = (self.asked.seed, card);
        println!(
            "difference: seed {seed}, log {} in all, card {m} {n} {d}: {text}",
            self.logs
        );
        let size = match self.asked.size {
            Some(_) => format!(" {m} {n} {d}"),
            None => String::new(),
        };
        println!("  again: compare soak one {}{size}", self.card);
    }

    fn so_far(&self) -> String {
        let seconds = self.start.elapsed().as_secs_f64();
        let rate = self.slots as f64 / seconds;
        format!(
            "{seconds:.1} seconds, {} slots, {rate:.0} slots per second, {} logs, {} drops, {} refused calls",
            self.slots, self.logs, self.drops, self.refused
        )
    }

    fn last_line(&self, well: bool) -> String {
        let (sizes, full, seed) = (self.sizes.len(), self.full, self.asked.seed);
        let verdict = if well {
            "no difference"
        } else {
            "a difference"
        };
        format!(
            "{}, card sizes {sizes} (logs at 32 by 32: {full}), seed {seed}: {verdict}",
            self.so_far()
        )
    }
}
