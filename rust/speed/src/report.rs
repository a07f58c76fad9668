//! The tables as Markdown.

use crate::calls::{Group, Row};
use crate::measure::Taken;

/// The best rounds, and then the median rounds. Where the proved code was timed, each cell of ordinary Rust says how many
/// times as long the proved code took.
pub fn tables(groups: &[Group]) -> String {
    let best = all(groups, |taken| taken.best);
    let median = all(groups, |taken| taken.median);
    format!("## Best round\n\n{best}## Median round\n\n{median}")
}

fn all(groups: &[Group], time: fn(&Taken) -> f64) -> String {
    groups.iter().map(|group| table(group, time)).collect()
}

fn table(group: &Group, time: fn(&Taken) -> f64) -> String {
    let Some(first) = group.rows.first() else {
        return String::new();
    };
    let sides = first.rattle.iter().chain(&first.ordinary);
    let names: Vec<_> = sides.map(|taken| taken.name).collect();
    let rows: String = group.rows.iter().map(|row| line(row, time)).collect();
    format!(
        "### {}\n\n| Call | Size | {} |\n|---|---|{}\n{rows}\n",
        group.title,
        names.join(" | "),
        "---|".repeat(names.len()),
    )
}

fn line(row: &Row, time: fn(&Taken) -> f64) -> String {
    let own = row.rattle.as_ref().map(time);
    let beside = |taken: &Taken| {
        let other = time(taken);
        match own {
            Some(own) => format!("{} ({:.2}x)", in_units(other), own / other),
            None => in_units(other),
        }
    };
    let mut cells: Vec<_> = own.map(in_units).into_iter().collect();
    cells.extend(row.ordinary.iter().map(beside));
    format!("| {} | {} | {} |\n", row.call, row.size, cells.join(" | "))
}

fn in_units(nanoseconds: f64) -> String {
    if nanoseconds < 1_000.0 {
        format!("{nanoseconds:.1} ns")
    } else if nanoseconds < 100_000.0 {
        format!("{:.2} µs", nanoseconds / 1_000.0)
    } else {
        format!("{:.0} µs", nanoseconds / 1_000.0)
    }
}
