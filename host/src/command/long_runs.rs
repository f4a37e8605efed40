//! Long runs: the proved search with budgets doubled from 1,000 on, so that there is an answer to show at any time.
//!
//! A run that ends before its budget is spent ends so at every larger budget. So the last answer is that of the budget
//! asked for, and an answer shown earlier is that of its own budget, counts included.

use super::arguments::Arguments;
use super::interrupt;
use super::settings::{Run, Settings};
use super::words::{counted, grouped};
use super::Complaint;
use crate::numbers::verdict;
use crate::reference::read_model;
use std::io::{self, IsTerminal, Write};
use std::sync::mpsc::{channel, Receiver, RecvTimeoutError};
use std::sync::Arc;
use std::time::{Duration, Instant};

pub const VALUED: [&str; 2] = ["--seconds", "--gap"];
pub const FLAGS: [&str; 2] = ["--quiet", "--progress"];

/// The first budget.
const FIRST: u32 = 1_000;

/// How often a run under way is looked at.
const LOOK: Duration = Duration::from_millis(20);

/// What ended a run before its budget was reached.
#[derive(Clone, Copy, PartialEq, Eq, Debug)]
pub enum Stop {
    Interrupt,
    Seconds,
    Gap,
}

impl Stop {
    pub fn name(self) -> &'static str {
        match self {
            Stop::Interrupt => "Ctrl-C",
            Stop::Seconds => "--seconds",
            Stop::Gap => "--gap",
        }
    }
}

/// How long a run lasts before it speaks of itself.
const PATIENCE: Duration = Duration::from_secs(1);

/// When to stop, and after what time to say how far the run is.
pub struct Watch {
    seconds: Option<u32>,
    gap: Option<u32>,
    speaks: Option<Duration>,
    terminal: bool,
}

/// A finished run with the settings that give it again.
pub struct Finished {
    pub run: Run,
    pub settings: Settings,
    pub stop: Option<Stop>,
}

impl Finished {
    /// What is said below an answer that was stopped early.
    pub fn stopped(&self) -> Option<String> {
        let stop = self.stop?.name();
        let budget = self.settings.budget;
        Some(format!(
            "stopped by {stop}; --budget {budget} gives this answer again, counts included"
        ))
    }
}

/// What the runs have cost so far.
#[derive(Default)]
struct Spent {
    runs: u64,
    expansions: u64,
    last: u64,
    time: Duration,
    last_time: Duration,
}

impl Watch {
    /// What the arguments ask for. Without an own budget, seconds or a gap alone stop the run.
    pub fn read(arguments: &Arguments, settings: &mut Settings) -> Result<Watch, Complaint> {
        let seconds = arguments.number("--seconds", u32::MAX)?;
        let gap = arguments.number("--gap", u32::MAX)?;
        if (seconds.is_some() || gap.is_some()) && arguments.value("--budget").is_none() {
            settings.budget = u32::MAX;
        }
        let terminal = io::stderr().is_terminal();
        let asked = arguments.flag("--progress").then_some(Duration::ZERO);
        let speaks = asked.or(terminal.then_some(PATIENCE));
        Ok(Watch {
            seconds,
            gap,
            speaks: speaks.filter(|_| !arguments.flag("--quiet")),
            terminal,
        })
    }

    /// Searches the model: by one call where nobody watches, else by doubled budgets.
    pub fn search(&self, model: &[u8], settings: Settings) -> Finished {
        let watched =
            self.terminal || self.speaks.is_some() || self.seconds.is_some() || self.gap.is_some();
        if !watched || settings.budget <= FIRST {
            let run = settings.search(model);
            let stop = None;
            return Finished {
                run,
                settings,
                stop,
            };
        }
        interrupt::listen();
        let finished = self.doubled(model, settings);
        interrupt::stop_listening();
        finished
    }

    fn doubled(&self, model: &[u8], settings: Settings) -> Finished {
        let transitions = read_model(model).map_or(0, |model| model.transitions.len());
        let model = Arc::new(model.to_vec());
        let begun = Instant::now();
        let mut spent = Spent::default();
        let mut last: Option<(Run, Settings)> = None;
        let mut budget = FIRST;
        loop {
            let mut now = settings.clone();
            now.budget = budget;
            let started = Instant::now();
            let result = start(&model, now.clone());
            let run = match self.wait(&result, begun, last.is_some()) {
                Ok(run) => run,
                Err(stop) => return self.ended(last, Some(stop), spent),
            };
            spent.add(&run, started.elapsed());
            self.tell(&run, &now, &spent, transitions);
            let open = !run.answer.refused && run.answer.verdict == verdict::BUDGET_SPENT;
            let stop = self.stop_after(&run, begun).filter(|_| open);
            last = Some((run, now));
            if !open || budget == settings.budget || stop.is_some() {
                let stop = stop.filter(|_| budget != settings.budget);
                return self.ended(last, stop, spent);
            }
            budget = budget.saturating_mul(2).min(settings.budget);
        }
    }

    /// Waits for a run's end; stops waiting when that is asked for and an answer is there already.
    fn wait(&self, result: &Receiver<Run>, begun: Instant, some: bool) -> Result<Run, Stop> {
        loop {
            match result.recv_timeout(LOOK) {
                Ok(run) => return Ok(run),
                Err(RecvTimeoutError::Disconnected) => return Err(Stop::Interrupt),
                Err(RecvTimeoutError::Timeout) => {}
            }
            if interrupt::asked() && !some {
                // The first answer is on its way; a second Ctrl-C does not wait for it.
                interrupt::stop_listening();
            }
            match self.asked_to_stop(begun) {
                Some(stop) if some => return Err(stop),
                _ => {}
            }
        }
    }

    fn asked_to_stop(&self, begun: Instant) -> Option<Stop> {
        let late = |seconds| begun.elapsed() >= Duration::from_secs(u64::from(seconds));
        if interrupt::asked() {
            Some(Stop::Interrupt)
        } else if self.seconds.is_some_and(late) {
            Some(Stop::Seconds)
        } else {
            None
        }
    }

    /// Why no larger budget is tried.
    fn stop_after(&self, run: &Run, begun: Instant) -> Option<Stop> {
        let answer = &run.answer;
        let gap = answer.cost.saturating_sub(answer.bound);
        let close = |most| answer.flag && gap <= u64::from(most);
        if self.gap.is_some_and(close) {
            return Some(Stop::Gap);
        }
        self.asked_to_stop(begun)
    }

    fn ended(&self, last: Option<(Run, Settings)>, stop: Option<Stop>, spent: Spent) -> Finished {
        let (run, settings) = last.expect("the first budget is always waited for");
        if self.speaks_after(&spent) {
            say(&spent.summary());
        }
        Finished {
            run,
            settings,
            stop,
        }
    }

    fn speaks_after(&self, spent: &Spent) -> bool {
        self.speaks.is_some_and(|patience| spent.time >= patience)
    }

    /// One line about a finished run.
    fn tell(&self, run: &Run, settings: &Settings, spent: &Spent, transitions: usize) {
        if !self.speaks_after(spent) || run.answer.refused {
            return;
        }
        let answer = &run.answer;
        let best = match answer.flag {
            true => format!(
                "best {}, bound {}, gap {}",
                grouped(answer.cost),
                grouped(answer.bound),
                grouped(answer.cost.saturating_sub(answer.bound))
            ),
            false => format!("no plan yet, bound {}", grouped(answer.bound)),
        };
        let children = answer.expansions as f64 * transitions as f64;
        let speed = children / spent.last_time.as_secs_f64().max(1e-6);
        say(&format!(
            "budget {}: width {}, {best}, {} children tried a second",
            grouped(settings.budget.into()),
            grouped(answer.width),
            grouped(speed as u64)
        ));
    }
}

impl Spent {
    fn add(&mut self, run: &Run, time: Duration) {
        self.runs += 1;
        self.expansions += run.answer.expansions;
        self.last = run.answer.expansions;
        self.time += time;
        self.last_time = time;
    }

    /// What doubling has cost against the last run alone.
    fn summary(&self) -> String {
        let times = self.expansions as f64 / (self.last as f64).max(1.0);
        format!(
            "{}, {} in all, {times:.2} times those of the last; {:.1} seconds, {:.1} in the last",
            counted(self.runs, "run"),
            counted(self.expansions, "expansion"),
            self.time.as_secs_f64(),
            self.last_time.as_secs_f64()
        )
    }
}

/// Searches apart, so that the wait for it can be given up. One search runs at a time.
fn start(model: &Arc<Vec<u8>>, settings: Settings) -> Receiver<Run> {
    let (sender, result) = channel();
    let model = Arc::clone(model);
    std::thread::spawn(move || {
        // Nobody may be waiting any more.
        let _ = sender.send(settings.search(&model));
    });
    result
}

fn say(line: &str) {
    // Nothing is left to do where standard error is closed.
    let _ = writeln!(io::stderr(), "{line}");
}
