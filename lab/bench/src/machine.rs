//! The machine that the benchmark runs on, and whether each engine is built for the processor that its name says.

use std::fs::read_to_string;

/// The first value of a name in /proc/cpuinfo.
fn processor(name: &str) -> String {
    let text = read_to_string("/proc/cpuinfo").unwrap_or_default();
    let mut lines = text.lines().filter_map(|line| line.split_once(':'));
    lines.find(|(key, _)| key.trim() == name).map_or("unknown".into(), |(_, value)| value.trim().into())
}

/// Fails where `engines` is built with more than every x86-64 processor has, or `native` with other instructions than
/// this one has, as it is if cargo is called without lab/bench/rustc or if it was built on another machine.
pub fn describe() -> Result<String, String> {
    if let Some(set) = engines::instructions().iter().find(|set| set.built) {
        return Err(format!("engines is built with {}; start lab/bench/run", set.name));
    }
    let sets = native::instructions();
    if let Some(set) = sets.iter().find(|set| set.built != set.present) {
        return Err(format!(
            "native is not built for this processor ({}); remove target/lab and start lab/bench/run",
            set.name
        ));
    }
    let built: Vec<&str> = sets.iter().filter(|set| set.built).map(|set| set.name).collect();
    let cores = std::thread::available_parallelism().map_or(0, |count| count.get());
    let load = read_to_string("/proc/loadavg").unwrap_or_default();
    Ok(format!(
        "Processor: {} (family {}, model {}), {cores} cores; native is built with {}; load at the start {}.",
        processor("model name"),
        processor("cpu family"),
        processor("model"),
        if built.is_empty() { "no extension".into() } else { built.join(", ") },
        load.split(' ').next().unwrap_or("unknown"),
    ))
}
