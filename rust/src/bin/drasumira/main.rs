//! The command for people: which lines of a log are noise, and why. Every verdict is the library's; what stands here reads files, calls, and
//! shows what was answered.
mod bursts;
mod compare;
mod html;
mod input;
mod languages;
mod options;
mod output;
mod reading;
mod report;
mod score;
mod shown;
mod why;

use drasumira::Tables;
use options::{Asked, Command, HELP, Options};
use output::Output;
use std::process::ExitCode;

// What the build wrote down: the kit and the logic that the library was proved by.
const PROOF: &str = include_str!(concat!(env!("OUT_DIR"), "/proof.txt"));

fn main() -> ExitCode {
    let mut output = Output::new();
    match options::asked(std::env::args_os().skip(1)) {
        Ok(Asked::Help) => output.put(HELP.as_bytes()),
        Ok(Asked::Version) => output.put(version().as_bytes()),
        Ok(Asked::Run(options)) => run(&options, &mut output),
        Err(words) => output.fail(&format!("{words}; drasumira --help tells more")),
    }
    output.end()
}

fn version() -> String {
    format!("drasumira {}\nthe library behind it is proved: {}\n", env!("CARGO_PKG_VERSION"), PROOF.trim_end())
}

fn run(options: &Options, output: &mut Output) {
    let tables = Tables::full();
    // the library's own word on the threshold
    if drasumira::score("", options.threshold, &tables).is_err() {
        return output.fail("--threshold must be a finite number");
    }
    match options.command {
        Command::Why => bursts::run(options, &tables, output, why::Why::of(options)),
        Command::Score => bursts::run(options, &tables, output, score::Rows),
        Command::Compare => bursts::run(options, &tables, output, compare::Compare),
        Command::Languages => languages::run(options, &tables, output),
        Command::Report => {
            let mut month = report::Month::default();
            bursts::run_with(options, &tables, output, report::Lines, |told, output| month.add(options.noise_threshold(), told, output));
            month.tell(options, output);
        }
    }
}

#[cfg(test)]
mod tests {
    #[test]
    fn help_fits_a_screen() {
        assert!(super::HELP.lines().count() <= 24);
        assert!(super::HELP.lines().all(|line| line.chars().count() <= 80));
    }
}
