// `drasumira report`: how the lines of all files are distributed over each detector's ratios.
use crate::bursts::{Shared, Teller, Told, each_line};
use crate::html;
use crate::input::{Burst, Name};
use crate::options::Options;
use crate::output::Output;
use crate::score::put;
use crate::shown::json;
use drasumira::{Detector, MOST_LINES, Refusal, Report};
use std::collections::BTreeMap;

/// Keeps the verdicts of a burst; the report is made of all of them, in order.
pub struct Lines;

impl Teller for Lines {
    fn tell(&self, shared: &Shared<'_>, burst: &Burst, rows: &mut Vec<u32>, told: &mut Told) {
        each_line(shared, burst, rows, told, |told, line| told.scores.push(line.score));
    }
}

/// A report that grows, and the causes of the refused lines.
#[derive(Default)]
pub struct Month {
    report: Report,
    noise: u64,
    causes: BTreeMap<u32, u64>,
    // whether there were more lines than a report takes
    full: bool,
}

impl Month {
    pub fn add(&mut self, threshold: f32, told: &Told, output: &mut Output) {
        for score in &told.scores {
            if self.report.add(score).is_err() {
                if !std::mem::replace(&mut self.full, true) {
                    output.fail(&format!(
                        "a report takes {MOST_LINES} lines at most: the lines behind them are left out; try fewer files at once"
                    ));
                }
                return;
            }
            match score {
                Ok(score) => self.noise += u64::from(score.sum >= threshold),
                Err(refusal) => *self.causes.entry(refusal.number).or_default() += 1,
            }
        }
    }

    pub fn tell(&self, options: &Options, output: &mut Output) {
        if options.json {
            output.put(&self.objects());
        } else {
            output.put(self.report.to_string().as_bytes());
        }
        let Some(path) = &options.html else { return };
        let files =
            options.files.iter().map(|path| if path.as_os_str() == "-" { "standard input".to_string() } else { Name::of(path).shown });
        let facts =
            html::Facts { files: files.collect(), threshold: options.noise_threshold(), noise: self.noise, causes: self.causes(options) };
        if let Err(e) = std::fs::write(path, html::page(&self.report, &facts)) {
            output.fail(&format!("{}: {e}", Name::of(path).shown));
        }
    }

    // Each cause in words, without a place: it is another one in each line.
    fn causes(&self, options: &Options) -> Vec<(String, u64)> {
        let words = |number: u32| match number {
            Refusal::ILL_FORMED => format!("not {}", options.readings[0].name),
            Refusal::TOO_LONG => "too long".to_string(),
            Refusal::UNCLASSED => "a character in no class record".to_string(),
            _ => format!("refusal {number}"),
        };
        self.causes.iter().map(|(number, count)| (words(*number), *count)).collect()
    }

    // One object a line: each bin, then the totals.
    fn objects(&self) -> Vec<u8> {
        let mut out = vec![];
        for detector in Detector::ALL {
            for (bin, count) in self.report.bins(detector) {
                let name = json(&detector.to_string());
                put(&mut out, format_args!("{{\"detector\":{name},\"bin\":{bin},\"lines\":{count}}}\n"));
            }
        }
        let (lines, refused) = (self.report.len() as u64, self.causes.values().sum::<u64>());
        put(&mut out, format_args!("{{\"lines\":{lines},\"accepted\":{},\"refused\":{refused}}}\n", lines - refused));
        out
    }
}
