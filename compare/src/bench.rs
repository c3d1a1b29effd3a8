//! The benchmark: times of the proved library beside a textbook assignment in the same run, what passing
//! the record by value costs at most, and the stack that each function takes. Nothing here says what a
//! figure should be.

mod lent;
mod logs;
mod marks;
mod matches;
mod page;
mod record;
mod slots;
mod stack;
mod time;

/// Prints all tables. An error where the two sides of a comparison answer differently.
pub fn run() -> Result<(), String> {
    print!("{}", head());
    print!("{}", matches::run()?);
    let (text, slot) = slots::run()?;
    print!("{text}");
    print!("{}", logs::run()?);
    print!("{}", record::run(slot)?);
    print!("{}", marks::run());
    Ok(())
}

fn head() -> String {
    format!(
        "# Times and stack of the library\n\n\
         Times of the library beside a textbook Hungarian in one run: both are timed in turns, sample by sample, in {} rounds.\n\
         The time of a sample is the median of its rounds; median, 99th (of a hundred) and worst are over the samples, and a\n\
         ratio is that of the medians. Reading the clock adds {:.0} ns to a sample. Processor: {}.\n\n",
        time::ROUNDS,
        time::clock_cost(),
        processor()
    )
}

/// The model of the processor, where the system tells it.
fn processor() -> String {
    let told = std::fs::read_to_string("/proc/cpuinfo").unwrap_or_default();
    let mut lines = told.lines().filter_map(|line| line.split_once(':'));
    let model = lines.find(|(name, _)| name.trim() == "model name");
    model.map_or("not told".to_string(), |(_, model)| {
        model.trim().to_string()
    })
}
