//! Writes large valid scripts for benchmarks: the same bytes for the same seed.
//! No event of a script is refused.

mod random;
mod requests;
mod sessions;

use std::io::{self, BufWriter, Write};
use std::process::ExitCode;

const USAGE: &str = "usage: workload PRESET [--OPTION N]..
sessions whose requests overlap: puts gets mixed deep wide audit growth crowd serve (a head alone)
  options: --events --tenants --dcs --shards --keys --group --value --reads
           --get-keys --sessions --carry --collect --renew --trans-time --seed
requests one after another: many_keys few_keys long_lists many_gets two_data_centres many_tenants
                            collected beside alone lives lives_beside
  options: --requests --seed";

/// The greatest quota.
const MOST: u64 = 4_294_967_295;

fn shard_of(key: &str, shards: u64) -> u64 {
    key.bytes().map(u64::from).sum::<u64>() % shards
}

/// Sets each option of the command line; None if one isn't known.
fn options(words: &[String], mut set: impl FnMut(&str, u64) -> Option<()>) -> Option<()> {
    for option in words.chunks(2) {
        let [name, number] = option else {
            return None;
        };
        set(name, number.parse().ok()?)?;
    }
    Some(())
}

/// Writes what the command line asks for; None if it asks for nothing known.
fn write(words: &[String], out: impl Write) -> Option<io::Result<()>> {
    let (preset, rest) = words.split_first()?;
    if let Some(case) = requests::Case::named(preset) {
        let plan = requests::Plan::of(case, rest)?;
        return Some(plan.write(out));
    }
    let plan = sessions::Plan::of(preset, rest)?;
    Some(plan.write(out))
}

fn main() -> ExitCode {
    let words: Vec<String> = std::env::args().skip(1).collect();
    let mut out = BufWriter::with_capacity(1 << 16, io::stdout().lock());
    match write(&words, &mut out).map(|written| written.and_then(|()| out.flush())) {
        None => {
            eprintln!("{USAGE}");
            ExitCode::from(2)
        }
        Some(Ok(())) => ExitCode::SUCCESS,
        Some(Err(error)) => {
            eprintln!("workload: {error}");
            ExitCode::FAILURE
        }
    }
}
