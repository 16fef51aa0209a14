//! Runs the comparisons.
//!
//!   outside-tests [--seed N] [--only PART] [--desk PATH] [--require NAME,NAME] [--stop]
//!
//! What is not linked, or not given, is left out: `baseline`, `worksheet`,
//! `probe`, `desk`. With --require a part that is left out is a failure. With
//! --stop the first suite that fails is the last one.

mod algebra_texts;
#[cfg(have_probe)]
mod bench;
mod compare;
mod desk;
mod ffi;
mod hard;
mod probe;
mod self_check;
mod space;
mod texts;

use outside_tests::report::Run;

struct Options {
    seed: u64,
    only: Option<String>,
    desk: Option<String>,
    required: Vec<String>,
    stop: bool,
}

fn options() -> Result<Options, String> {
    let mut options = Options { seed: 20_250_101, only: None, desk: None, required: Vec::new(), stop: false };
    let mut words = std::env::args().skip(1);
    while let Some(word) = words.next() {
        if word == "--stop" {
            options.stop = true;
            continue;
        }
        let value = words.next().ok_or(format!("{word} needs a value"))?;
        match word.as_str() {
            "--seed" => options.seed = value.parse().map_err(|_| format!("no number: {value}"))?,
            "--only" => options.only = Some(value),
            "--desk" => options.desk = Some(value),
            "--require" => options.required = value.split(',').map(str::to_string).collect(),
            _ => return Err(format!("unknown word: {word}")),
        }
    }
    Ok(options)
}

fn main() {
    let options = options().unwrap_or_else(|fault| {
        eprintln!("outside-tests: {fault}");
        std::process::exit(2);
    });
    let required = |name: &str| options.required.iter().any(|r| r == name);
    let mut run = Run::new(options.seed, options.only.clone(), options.stop);
    self_check::suites(&mut run);
    algebra_texts::reference_suites(&mut run);
    for (name, library, share) in [("baseline", ffi::baseline(), 4), ("worksheet", ffi::worksheet(), 1)] {
        match library {
            Some(library) => {
                compare::suites(&mut run, library, share);
                space::suites(&mut run, library, share);
                hard::suites(&mut run, library, share);
            }
            None => run.left_out(name, "not linked", required(name)),
        }
    }
    if !probe::suites(&mut run) {
        run.left_out("probe", "not linked", required("probe"));
    }
    for library in [ffi::baseline_texts(), ffi::probe_texts()].into_iter().flatten() {
        algebra_texts::suites(&mut run, library);
    }
    match &options.desk {
        Some(program) => {
            desk::suites(&mut run, program);
            if let Some(library) = ffi::probe_texts() {
                algebra_texts::suites_with_desk(&mut run, library, program);
            }
        }
        None => run.left_out("desk", "no program given", required("desk")),
    }
    if !run.end() {
        std::process::exit(1);
    }
}
