//! Rewrites a module and says what was done, or why nothing was, or changes it, as `examples/c/mutate.c` does:
//!
//! ```text
//! mutate [--exact] [--shrink] [--seed N] [--count N] [--percent N] [--function N] [--growth N] [--rule NAME].. [--strip] MODULE NEW
//! mutate --change [--seed N] [--count N] [--function N] [--growth N] [--strip] MODULE NEW
//! ```
//!
//! The status is 2 where the library writes no module, and 1 where the options can't be read or don't go together, or a file can't be
//! read or written.

use std::fmt::Display;
use std::process::ExitCode;
use std::{env, fs};
use teddertempo::{change, rewrite, strip, ChangeOptions, Edits, Error, Options};

/// How many bytes more than the old module the new one may have.
const EXTRA: usize = 1 << 16;

/// The options with another one, or its name where the value is none for it; no answer where there is no such option.
fn with_option(options: Options, name: &str, value: &str) -> Option<Options> {
    Some(match name {
        "--seed" => options.seed(value.parse().ok()?),
        "--count" => options.count(value.parse().ok()?),
        "--function" => options.function(value.parse().ok()?),
        "--percent" => options.percent(value.parse().ok()?),
        "--growth" => options.growth(value.parse().ok()?),
        "--rule" => options.rule(value.parse().ok()?),
        _ => return None,
    })
}

/// The options of a change with another one, where it has one of that name.
fn with_change_option(options: ChangeOptions, name: &str, value: &str) -> Option<ChangeOptions> {
    Some(match name {
        "--seed" => options.seed(value.parse().ok()?),
        "--count" => options.count(value.parse().ok()?),
        "--function" => options.function(value.parse().ok()?),
        "--growth" => options.growth(value.parse().ok()?),
        _ => options,
    })
}

/// What is asked for, and the names of the two files.
struct Arguments<'a> {
    options: Options,
    /// The last option that is for rewrites alone.
    for_rewrites: Option<&'a str>,
    /// The module is changed, so, and not rewritten.
    change: Option<ChangeOptions>,
    /// Custom sections that name places in the code are dropped then.
    is_stripped: bool,
    old: &'a str,
    new: &'a str,
}

/// Reads the options, and the names of the two files.
fn read_arguments(mut words: &[String]) -> Option<Arguments<'_>> {
    let mut options = Options::new();
    let mut change_options = ChangeOptions::new();
    let mut is_change = false;
    let mut is_stripped = false;
    let mut for_rewrites = None;
    loop {
        match words {
            [name, rest @ ..] if name == "--change" => {
                is_change = true;
                words = rest;
            }
            [name, rest @ ..] if name == "--strip" => {
                is_stripped = true;
                words = rest;
            }
            [name, rest @ ..] if name == "--exact" => {
                options = options.exact();
                for_rewrites = Some(name.as_str());
                words = rest;
            }
            [name, rest @ ..] if name == "--shrink" => {
                options = options.shrink();
                for_rewrites = Some(name.as_str());
                words = rest;
            }
            [old, new] => {
                return Some(Arguments {
                    options,
                    for_rewrites,
                    change: is_change.then_some(change_options),
                    is_stripped,
                    old,
                    new,
                });
            }
            [name, value, rest @ ..] => {
                options = with_option(options, name, value)?;
                change_options = with_change_option(change_options, name, value)?;
                if matches!(name.as_str(), "--percent" | "--rule") {
                    for_rewrites = Some(name.as_str());
                }
                words = rest;
            }
            _ => return None,
        }
    }
}

/// Prints what was done with a module of so many bytes, or why nothing was; returns the new module.
fn told<Kind: Display>(
    size: usize,
    module: Vec<u8>,
    what: &str,
    result: Result<Edits<Kind>, Error>,
) -> Option<Vec<u8>> {
    match result {
        Ok(edits) => {
            println!(
                "{size} bytes, now {}; {what} {}, the last by {} in function {}",
                module.len(),
                edits.made,
                edits.kind,
                edits.function
            );
            Some(module)
        }
        Err(error) => {
            println!("nothing done: {error}");
            None
        }
    }
}

/// Whether there is a new module, or what went wrong.
fn run(arguments: &Arguments<'_>) -> Result<bool, String> {
    let Arguments { old, new, .. } = arguments;
    if let (Some(_), Some(name)) = (&arguments.change, arguments.for_rewrites) {
        return Err(format!(
            "{name} is for rewrites alone: leave it out with --change"
        ));
    }
    let mut module = fs::read(old).map_err(|e| format!("{old}: {e}"))?;
    let size = module.len();
    let mut made = match &arguments.change {
        Some(options) => {
            let result = change(&mut module, size + EXTRA, options);
            told(size, module, "changes", result)
        }
        None => {
            let result = rewrite(&mut module, size + EXTRA, &arguments.options);
            told(size, module, "rewrites", result)
        }
    };
    if let Some(module) = &mut made {
        if arguments.is_stripped {
            strip(module).map_err(|e| format!("{new}: {e}"))?;
        }
        fs::write(new, module).map_err(|e| format!("{new}: {e}"))?;
    }
    Ok(made.is_some())
}

fn main() -> ExitCode {
    let words: Vec<String> = env::args().skip(1).collect();
    let arguments = match read_arguments(&words) {
        Some(arguments) => arguments,
        None => {
            eprintln!(
                "usage: mutate [--change] [--exact] [--shrink] [--seed N] [--count N] [--percent N] [--function N] [--growth N] [--rule NAME].. [--strip] MODULE NEW"
            );
            return ExitCode::from(1);
        }
    };
    match run(&arguments) {
        Ok(true) => ExitCode::SUCCESS,
        Ok(false) => ExitCode::from(2),
        Err(message) => {
            eprintln!("mutate: {message}");
            ExitCode::from(1)
        }
    }
}
