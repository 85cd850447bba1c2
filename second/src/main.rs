//! The command line: one check from three files, many from standard input, or cases.

use std::env;
use std::ffi::{OsStr, OsString};
use std::fs;
use std::io::{self, BufReader, BufWriter, Write};
use std::path::Path;
use std::process::ExitCode;

const USAGE: &str = "usage: second [--state] DOMAIN PROBLEM PLAN | second --batch | \
                     second --generate SEED N | second --texts SEED DOMAIN PROBLEM | second --survey";

fn main() -> ExitCode {
    let arguments: Vec<OsString> = env::args_os().skip(1).collect();
    match run(&arguments) {
        Ok(()) => ExitCode::SUCCESS,
        Err(message) => {
            eprintln!("second: {message}");
            ExitCode::from(2)
        }
    }
}

fn run(arguments: &[OsString]) -> Result<(), String> {
    let output = &mut BufWriter::new(io::stdout().lock());
    let first = arguments.first().and_then(|first| first.to_str());
    match (first, arguments) {
        (Some("--batch"), [_]) => {
            let input = &mut BufReader::new(io::stdin().lock());
            second::batch::answer_records(input, output).map_err(|error| error.to_string())
        }
        (Some("--survey"), [_]) => {
            let input = &mut BufReader::new(io::stdin().lock());
            second::survey::survey(input, output).map_err(|error| error.to_string())
        }
        (Some("--generate"), [_, seed, count]) => {
            second::generate::generate(number(seed)?, number(count)?, output)
                .and_then(|()| output.flush())
                .map_err(|error| error.to_string())
        }
        (Some("--texts"), [_, seed, domain, problem]) => {
            let given = (read(domain)?, read(problem)?);
            second::generate::texts::write(number(seed)?, &given, output)
                .and_then(|()| output.flush())
                .map_err(|error| error.to_string())
        }
        (Some("--state"), [_, files @ ..]) => check(files, second::written, output),
        (Some(option), _) if option.starts_with("--") => Err(USAGE.to_string()),
        (_, files) => check(files, |answer| answer.line.clone(), output),
    }
}

fn number(argument: &OsStr) -> Result<u64, String> {
    let number = argument.to_str().and_then(|digits| digits.parse().ok());
    number.ok_or_else(|| USAGE.to_string())
}

/// Answers for three files and writes what `wanted` takes of the answer.
fn check(
    files: &[OsString],
    wanted: fn(&second::Answer) -> String,
    output: &mut dyn Write,
) -> Result<(), String> {
    let [domain, problem, plan] = files else {
        return Err(USAGE.to_string());
    };
    let answer = second::answer(&read(domain)?, &read(problem)?, &read(plan)?);
    output
        .write_all(wanted(&answer).as_bytes())
        .and_then(|()| output.flush())
        .map_err(|error| error.to_string())
}

fn read(file: &OsStr) -> Result<Vec<u8>, String> {
    fs::read(file).map_err(|error| format!("{}: {error}", Path::new(file).display()))
}
