//! Medians of many runs, and a table of them.

use std::time::Instant;

/// The median time of one pass, in nanoseconds: each run makes `passes` of
/// them and the first tenth of the runs is not counted.
pub fn median_nanos(runs: usize, passes: usize, mut pass: impl FnMut()) -> f64 {
    let mut times = Medians::default();
    for run in 0..runs + runs / 10 {
        let start = Instant::now();
        for _ in 0..passes {
            pass();
        }
        if run >= runs / 10 {
            times.push(start.elapsed().as_nanos() as f64 / passes as f64);
        }
    }
    times.median()
}

/// Times of the same thing in several rounds, in nanoseconds.
#[derive(Clone, Debug, Default)]
pub struct Medians {
    times: Vec<f64>,
}

impl Medians {
    pub fn push(&mut self, time: f64) {
        self.times.push(time);
    }

    /// The middle one.
    pub fn median(&self) -> f64 {
        let mut times = self.times.clone();
        times.sort_by(f64::total_cmp);
        times.get(times.len() / 2).copied().unwrap_or(f64::NAN)
    }

    /// From the lowest to the highest, as a part of the median.
    pub fn spread(&self) -> f64 {
        let lowest = self.times.iter().copied().fold(f64::INFINITY, f64::min);
        let highest = self.times.iter().copied().fold(0.0, f64::max);
        (highest - lowest) / self.median()
    }
}

/// One row of the table.
#[derive(Clone, Debug)]
pub struct Timing {
    pub name: &'static str,
    pub archive: Medians,
    pub model: Medians,
}

impl Timing {
    /// Times both by turns, so that a slow stretch of time meets both.
    pub fn of(
        name: &'static str,
        rounds: usize,
        archive: impl Fn() -> f64,
        model: impl Fn() -> f64,
    ) -> Self {
        let mut timing = Timing {
            name,
            archive: Medians::default(),
            model: Medians::default(),
        };
        for _ in 0..rounds {
            timing.archive.push(archive());
            timing.model.push(model());
        }
        timing
    }

    /// The middle one of the rounds' ratios.
    pub fn ratio(&self) -> f64 {
        let rounds = self.archive.times.iter().zip(&self.model.times);
        let times = rounds.map(|(archive, model)| archive / model).collect();
        Medians { times }.median()
    }

    pub fn table_row(&self) -> String {
        let (archive, model) = (micros(self.archive.median()), micros(self.model.median()));
        table_line([self.name, &archive, &model, &format!("{:.2}", self.ratio())])
    }
}

fn micros(nanos: f64) -> String {
    format!("{:.3}", nanos / 1_000.0)
}

fn table_line([name, archive, model, ratio]: [&str; 4]) -> String {
    format!("{name:<52}{archive:>12}{model:>12}{ratio:>9}")
}

/// The heading of the table; times are in microseconds.
pub fn table_heading() -> String {
    table_line(["microseconds, median", "archive", "model", "ratio"])
}
