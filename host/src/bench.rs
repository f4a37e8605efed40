//! The proved search against the fast plain one: the same searches in one process, in turns, with the same counts required.

use crate::answer::Answer;
use crate::families::{families, family, Family};
use crate::fast::search_counted;
use crate::numbers::words_needed;
use crate::proved;
use std::io::Write;
use std::time::Instant;

const WIDTHS: [u64; 4] = [16, 256, 1_024, 4_096];
const LENGTH: u64 = 128;
const SEED: u64 = 1;
/// The expansions of a search, at most.
const BUDGET: u64 = 500_000;
/// The two searches are repeated until they have taken this long together.
const SECONDS: f64 = 0.6;

/// Seconds spent by this process: processor time where Linux tells it, else the time on the clock.
fn seconds(since: Instant) -> f64 {
    let told = std::fs::read_to_string("/proc/self/schedstat").ok();
    let spent = told.and_then(|text| text.split(' ').next()?.parse::<f64>().ok());
    spent.map_or(since.elapsed().as_secs_f64(), |nanoseconds| {
        nanoseconds / 1e9
    })
}

/// What was measured of one model at one width.
struct Row {
    answer: Answer,
    children: u64,
    proved: f64,
    fast: f64,
}

/// Runs both searches in turns; tells where their answers or plans differ.
fn measure(model: &[u8], width: u64) -> Result<Row, String> {
    let since = Instant::now();
    let mut plan = vec![0; LENGTH as usize];
    let mut words = vec![0; words_needed(width, LENGTH) as usize];
    let (mut proved, mut fast) = (0.0, 0.0);
    let mut runs = 0.0;
    loop {
        let start = seconds(since);
        let answer = proved::search(
            model,
            width as u32,
            LENGTH as u32,
            BUDGET as u32,
            &mut plan,
            &mut words,
        );
        let middle = seconds(since);
        let (other, steps, counts) = search_counted(model, width, LENGTH, BUDGET);
        let end = seconds(since);
        if answer != other || plan[..answer.length as usize] != steps[..] {
            return Err(format!("the answers differ: {answer:?} and {other:?}"));
        }
        proved += middle - start;
        fast += end - middle;
        runs += 1.0;
        if proved + fast >= SECONDS {
            return Ok(Row {
                answer,
                children: counts.children,
                proved: proved / runs,
                fast: fast / runs,
            });
        }
    }
}

fn write_row(out: &mut impl Write, family: &Family, width: u64, row: &Row) -> std::io::Result<()> {
    let expansions = row.answer.expansions as f64;
    let children = row.children as f64;
    writeln!(
        out,
        "{:20} {:>4} {width:>6} {:>8} {:>10} {:>11} {:>11.0} {:>11.0} {:>11.0} {:>11.0} {:>7.2} {:>8.0} {:>8.0}",
        family.name,
        family.usual,
        row.answer.verdict,
        row.answer.expansions,
        row.children,
        expansions / row.proved,
        expansions / row.fast,
        children / row.proved,
        children / row.fast,
        row.fast / row.proved,
        row.proved * 1e9 / children,
        row.fast * 1e9 / children,
    )
}

fn write_head(out: &mut impl Write) -> std::io::Result<()> {
    writeln!(
        out,
        "{:20} {:>4} {:>6} {:>8} {:>10} {:>11} {:>23} {:>23} {:>7} {:>17}",
        "family",
        "size",
        "width",
        "verdict",
        "expansions",
        "children",
        "expansions a second",
        "children a second",
        "ratio",
        "ns a child"
    )?;
    writeln!(
        out,
        "{:64} {:>11} {:>11} {:>11} {:>11} {:>7} {:>8} {:>8}",
        "", "proved", "plain", "proved", "plain", "", "proved", "plain"
    )
}

/// Measures the named families, or orders and TSPTW where none is named, or all for `all`.
pub fn run(names: &[String], out: &mut impl Write) -> Result<(), String> {
    let chosen: Vec<Family> = match names {
        [] => vec![family("orders"), family("tsptw")]
            .into_iter()
            .flatten()
            .collect(),
        [all] if all == "all" => families(),
        names => names
            .iter()
            .map(|name| family(name).ok_or(format!("there is no family `{name}`")))
            .collect::<Result<_, _>>()?,
    };
    let told = |error: std::io::Error| error.to_string();
    write_head(out).map_err(told)?;
    for family in &chosen {
        let model = (family.model)(family.usual, SEED);
        for width in WIDTHS {
            let row = measure(&model, width)?;
            write_row(out, family, width, &row).map_err(told)?;
        }
    }
    Ok(())
}
