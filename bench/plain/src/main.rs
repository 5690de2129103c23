//! The program: `plain run`, `solo`, `audit`, `replay`, `migrate` and `serve`.

use plain::audit::{audit_text, migrate_text, replay_text, write_audit};
use plain::lines::Lines;
use plain::script::{LONGEST_LINE, Options, Stop, read_head, run_script, solo_script};
use plain::service::{Limits, serve_at};
use plain::types::{Fault, Layout};
use std::ffi::OsString;
use std::io;
use std::os::unix::ffi::OsStringExt;
use std::process::ExitCode;

const USAGE: &str = "usage: plain run | solo TENANT | audit | replay TENANT | migrate
       plain serve ADDRESS [--workers N] [--connections N]
options: --layout 1        the older layout of versions, with no tenants but the head's
         --count-audit     keep only the length of audits (run, solo, replay)";

enum Command {
    Run,
    Solo(Vec<u8>),
    Audit,
    Replay(Vec<u8>),
    Migrate,
    Serve(String, Limits),
}

/// Takes the command line apart; None if it is of no form.
fn parse(words: impl Iterator<Item = OsString>) -> Option<(Command, Options)> {
    let mut options = Options {
        layout: Layout::Two,
        keep_audit: true,
    };
    let mut limits = Limits {
        workers: 4,
        connections: u64::from(u32::MAX),
    };
    let mut plain = Vec::new();
    let mut words = words.map(OsString::into_vec);
    let mut of_serve = false;
    while let Some(word) = words.next() {
        let (flag, joined) = match word.iter().position(|&byte| byte == b'=') {
            Some(place) if word.starts_with(b"--") => {
                (&word[..place], Some(word[place + 1..].to_vec()))
            }
            _ => (&word[..], None),
        };
        let mut number = || -> Option<u64> {
            let text = joined.clone().or_else(|| words.next())?;
            std::str::from_utf8(&text).ok()?.parse().ok()
        };
        match flag {
            b"--layout" => {
                options.layout = match number()? {
                    1 => Layout::One,
                    2 => Layout::Two,
                    _ => return None,
                }
            }
            b"--workers" => {
                limits.workers = number().filter(|count| (1..=16).contains(count))? as usize;
                of_serve = true;
            }
            b"--connections" => {
                limits.connections =
                    number().filter(|count| (1..=u64::from(u32::MAX)).contains(count))?;
                of_serve = true;
            }
            b"--count-audit" if joined.is_none() => options.keep_audit = false,
            _ if word.starts_with(b"-") => return None,
            _ => plain.push(word),
        }
    }
    let mut plain = plain.into_iter();
    let command = match plain.next()?.as_slice() {
        b"run" => Command::Run,
        b"solo" => Command::Solo(plain.next()?),
        b"audit" => Command::Audit,
        b"replay" => Command::Replay(plain.next()?),
        b"migrate" if options.layout == Layout::Two => Command::Migrate,
        b"serve" => Command::Serve(String::from_utf8(plain.next()?).ok()?, limits),
        _ => return None,
    };
    if plain.next().is_some() || (of_serve && !matches!(command, Command::Serve(..))) {
        return None;
    }
    if matches!(command, Command::Audit | Command::Serve(..)) {
        options.keep_audit = true;
    }
    Some((command, options))
}

fn execute(command: Command, options: &Options) -> Result<(), Stop> {
    let (input, output) = (io::stdin().lock(), io::stdout().lock());
    match command {
        Command::Run => run_script(input, output, options),
        Command::Solo(tenant) => solo_script(input, output, &tenant, options),
        Command::Audit => audit_text(input, output, options),
        Command::Replay(tenant) => replay_text(input, output, &tenant, options),
        Command::Migrate => migrate_text(input, output).map(drop),
        Command::Serve(address, limits) => {
            let config = read_head(&mut Lines::new(input, LONGEST_LINE), options)?;
            let nodes = serve_at(&config, &address, &limits)?;
            write_audit(output, &config, &nodes)
        }
    }
}

fn main() -> ExitCode {
    let Some((command, options)) = parse(std::env::args_os().skip(1)) else {
        eprintln!("{USAGE}");
        return ExitCode::from(2);
    };
    let Err(stop) = execute(command, &options) else {
        return ExitCode::SUCCESS;
    };
    match stop {
        Stop::BadConfig(line) => eprintln!("cops: configuration line {line}"),
        Stop::Refused(fault) => eprintln!("cops: {fault}"),
        Stop::RefusedAt(fault, line) => eprintln!("cops: {fault} line {line}"),
    }
    match stop {
        Stop::Refused(Fault::Torn | Fault::OutOfMemory | Fault::ReadFault | Fault::WriteFault) => {
            ExitCode::from(1)
        }
        _ => ExitCode::from(2),
    }
}
