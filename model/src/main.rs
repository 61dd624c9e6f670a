//! A model of the array of document 01 with requests 1 to 4 of document 02, written from these documents alone.

mod array;
mod calls;
mod choose;
mod cover;
mod faults;
mod generate;
mod hostile;
mod oracle;
mod params;
mod recover;
mod rng;
mod script;
mod segments;
mod simulate;
mod state;
mod twin;

use std::io::{self, BufRead, Write};

/// A script from standard input; why: with words on what each call met.
fn interpret(why: bool) -> io::Result<()> {
    let mut array = array::Array::none();
    let mut out = io::BufWriter::new(io::stdout().lock());
    for line in io::stdin().lock().split(b'\n') {
        let line = String::from_utf8_lossy(&line?).into_owned();
        if line.trim().is_empty() {
            continue;
        }
        match script::Command::parse(&line) {
            None => writeln!(out, "error")?,
            Some(command) => writeln!(out, "{}", script::line(&mut array, &command, why))?,
        }
    }
    out.flush()
}

fn number(args: &[String], i: usize) -> Option<u64> {
    args.get(i)?.parse().ok()
}

/// KIND SEED CALLS [N B Z S G L], --coverage SECONDS [SEED [KIND]] or --calls CALLS [SEED [KIND]].
fn generate(args: &[String]) -> Option<io::Result<()>> {
    let (seed, only) = (number(args, 2).unwrap_or(1), args.get(3).map(String::as_str));
    let counted = match args.first()?.as_str() {
        "--coverage" => Some(cover::coverage(number(args, 1)?, u64::MAX, seed, only)),
        "--calls" => Some(cover::coverage(u64::MAX, number(args, 1)?, seed, only)),
        _ => None,
    };
    if let Some(all) = counted {
        std::process::exit(!all as i32);
    }
    let kind = args.first().filter(|k| generate::KINDS.contains(&k.as_str()))?;
    let (seed, calls) = (number(args, 1)?, number(args, 2)?);
    let given = match args.len() {
        3 => None,
        9 => {
            let v: Vec<u64> = (3..9).map(|i| number(args, i)).collect::<Option<_>>()?;
            Some(params::Params::new(v[0], v[1], v[2], v[3], v[4], v[5])?)
        }
        _ => return None,
    };
    let script = generate::generate(kind, seed, calls, given, &mut cover::Cover::default());
    let mut out = io::BufWriter::new(io::stdout().lock());
    for command in script {
        if let Err(e) = writeln!(out, "{command}") {
            return Some(Err(e));
        }
    }
    Some(out.flush())
}

/// SECONDS [SEED]
fn simulate(args: &[String]) -> Option<io::Result<()>> {
    let seed = if args.len() > 1 { number(args, 1)? } else { 1 };
    let held = simulate::simulate(number(args, 0)?, seed);
    std::process::exit(!held as i32);
}

fn main() {
    let args: Vec<String> = std::env::args().skip(1).collect();
    let result = match args.first().map(String::as_str) {
        Some("script") => match args.get(1).map(String::as_str) {
            None => Some(interpret(false)),
            Some("--why") => Some(interpret(true)),
            _ => None,
        },
        Some("generate") => generate(&args[1..]),
        Some("simulate") => simulate(&args[1..]),
        _ => None,
    };
    match result {
        None => {
            eprintln!("usage: model script [--why]");
            eprintln!("       model generate run|hostile|fill|small SEED CALLS [N B Z S G L]");
            eprintln!("       model generate --coverage SECONDS [SEED [KIND]]");
            eprintln!("       model generate --calls CALLS [SEED [KIND]]");
            eprintln!("       model simulate SECONDS [SEED]");
            std::process::exit(2);
        }
        Some(Err(e)) if e.kind() != io::ErrorKind::BrokenPipe => {
            eprintln!("{e}");
            std::process::exit(1);
        }
        _ => {}
    }
}
