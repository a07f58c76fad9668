//! What the program can tell of the machine that it runs on.

use std::fs;
use std::thread;

pub fn description() -> String {
    let cores = thread::available_parallelism().map_or(0, |count| count.get());
    format!(
        "Machine: {}, {}, {cores} cores.",
        std::env::consts::ARCH,
        processor().unwrap_or_else(|| "processor unknown".into()),
    )
}

/// The name of the processor, or on Arm its numbers.
fn processor() -> Option<String> {
    let text = fs::read_to_string("/proc/cpuinfo").ok()?;
    let field = |name: &str| {
        let line = text.lines().find(|line| line.starts_with(name))?;
        Some(line.split_once(':')?.1.trim().to_string())
    };
    field("model name").or_else(|| {
        Some(format!(
            "CPU implementer {}, part {}, variant {}",
            field("CPU implementer")?,
            field("CPU part")?,
            field("CPU variant")?
        ))
    })
}
