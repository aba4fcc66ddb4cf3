//! From a formula to a printer's masks. Every pixel comes from a proved call of `layers`; what is here places blocks,
//! scales axes, writes files and says what it does.

mod archive;
mod args;
mod check;
mod clamp;
mod commands;
mod cost;
mod diff;
mod draw;
mod import;
mod join;
mod language;
mod manifest;
mod messages;
mod part;
mod pitch;
mod plate;
mod printers;
mod progress;
mod random;
mod relief;
mod setup;
mod spans;
mod stack;
mod sweep;
mod trace;
mod units;
mod verify;
mod view;
mod why;

use args::Cli;
use clap::Parser;
use messages::Stop;
use std::io::Write;
use std::process::ExitCode;

fn main() -> ExitCode {
    let cli = Cli::parse();
    match run(&cli) {
        Ok(None) => ExitCode::SUCCESS,
        Ok(Some(stop)) => ended(&stop),
        Err(stop) => {
            if cli.json {
                say(&files::json::line(&stop.to_json()));
            }
            ended(&stop)
        }
    }
}

/// Runs the command and says its result, which can be a bad end all the same.
fn run(cli: &Cli) -> Result<Option<Stop>, Stop> {
    let threads = cli.jobs.map_or(0, usize::from);
    let pool = rayon::ThreadPoolBuilder::new().num_threads(threads).build();
    let pool = pool.map_err(|error| Stop::Usage(format!("no {threads} threads can be had: {error}")))?;
    let said = pool.install(|| commands::run(cli))?;
    if cli.json {
        say(&files::json::line(&said.value));
    } else if !cli.quiet {
        say(&said.lines.join("\n"));
    }
    Ok(said.stop)
}

fn ended(stop: &Stop) -> ExitCode {
    // nobody may be reading
    let _ = writeln!(std::io::stderr(), "lezantsiro: {stop}");
    stop.exit_code()
}

/// A line on standard output. Who reads it may have gone.
fn say(line: &str) {
    let _ = writeln!(std::io::stdout(), "{line}");
}
