//! Barkruffle beside the two Rust files that it carries over: see README.md.
mod bench;
mod both;
mod definition;
mod domain;
mod generate;
mod literal;
mod ours;
mod reader_vectors;
mod readers;
mod report;
mod rng;
mod sample;
mod shrink;
mod tables;
mod theirs;
mod vectors;

use std::{path::Path, process::ExitCode};

use both::{BITES, Bite, Both};
use report::Report;
use rng::Rng;
use tables::Case;

const SEED: u64 = 20_261_115;

/// What stopped a run: an object, and what is wrong with it.
struct Fault {
    what: String,
    smallest: String,
}

/// Whom our answers are held to: document 01's literal model on every input, and the crate inside the domain. A fault put in on
/// purpose is held to one of the two, so that each is seen to notice it.
#[derive(Clone, Copy, PartialEq)]
enum Held {
    ToBoth,
    ToModel(Bite),
    ToCrate(Bite),
}

impl Held {
    fn bite(self) -> Option<Bite> {
        match self {
            Held::ToBoth => None,
            Held::ToModel(bite) | Held::ToCrate(bite) => Some(bite),
        }
    }

    fn to_model(self) -> bool {
        !matches!(self, Held::ToCrate(_))
    }

    fn to_crate(self) -> bool {
        !matches!(self, Held::ToModel(_))
    }
}

/// Whether an object shows a fault: inside the domain, the crate's answer and ours differ; anywhere, ours is not document 01's.
fn shows(both: &Both, held: Held) -> Option<String> {
    let wrong = if held.to_model() { both.against_model() } else { None };
    wrong.or_else(|| if held.to_crate() && both.said.inside() { both.difference() } else { None })
}

fn fault(case: &Case, held: Held) -> Option<String> {
    shows(&both::run(case, held.bite()), held)
}

fn compare(objects: u64, seed: u64, held: Held, report: &mut Report) -> Result<(), Fault> {
    let mut rng = Rng::new(seed);
    for _ in 0..objects {
        let case = generate::case(&mut rng);
        let both = both::run(&case, held.bite());
        if let Some(what) = shows(&both, held) {
            let small = shrink::smallest(&case, |c| fault(c, held).is_some());
            let what = fault(&small, held).unwrap_or(what);
            return Err(Fault { what, smallest: shrink::words(&small) });
        }
        report.add(&case, &both);
    }
    for _ in 0..objects / 4 {
        let input = readers::input(&mut rng);
        let k = rng.pick(&[0, 0, 1, 2, input.count.wrapping_sub(1), input.count, u32::MAX]);
        let read = readers::run(&input, k, held.bite());
        let wrong = read.wrong.clone().filter(|_| held.to_model());
        let differs = read.differs.clone().filter(|_| held.to_crate() && read.cause == readers::INSIDE);
        if let Some(what) = wrong.or(differs) {
            let smallest = format!(
                "  reader: line {}, size {}, count {}, output {}, data {:02x?}\n",
                input.line, input.size, input.count, input.room, input.data
            );
            return Err(Fault { what, smallest });
        }
        report.add_read(&read);
    }
    Ok(())
}

fn run(objects: u64, seed: u64, brief: bool) -> ExitCode {
    println!("compare: {objects} objects, seed {seed}");
    let mut report = Report::new();
    if let Err(fault) = compare(objects, seed, Held::ToBoth, &mut report) {
        println!("compare: MISMATCH: {}\nthe smallest object found:\n{}", fault.what, fault.smallest);
        return ExitCode::FAILURE;
    }
    if !brief {
        report.print();
    }
    let missing = report.missing();
    for what in &missing {
        println!("compare: never met: {what}");
    }
    if !missing.is_empty() {
        return ExitCode::FAILURE;
    }
    println!("compare: {} objects, {} inside the domain, all equal", report.objects, report.inside_all());
    ExitCode::SUCCESS
}

/// Each fault put into our answers on purpose has to be noticed, by the crate's answers alone and by the model's alone.
fn bites(objects: u64, seed: u64) -> ExitCode {
    for bite in BITES {
        for (held, whose) in [(Held::ToCrate(bite), "crate"), (Held::ToModel(bite), "model")] {
            match compare(objects, seed, held, &mut Report::new()) {
                Err(fault) => println!("compare: {bite:?} noticed by the {whose}: {}", fault.what),
                Ok(()) => {
                    println!("compare: {bite:?} went unnoticed by the {whose}");
                    return ExitCode::FAILURE;
                }
            }
        }
    }
    println!("compare: {} faults put in, all noticed by the crate and by the model", BITES.len());
    ExitCode::SUCCESS
}

fn main() -> ExitCode {
    theirs::quiet_panics();
    let args: Vec<String> = std::env::args().skip(1).collect();
    let value = |name: &str, or: u64| match args.iter().position(|a| a == name).map(|i| args.get(i + 1).and_then(|v| v.parse().ok())) {
        Some(value) => value.unwrap_or_else(|| panic!("{name} takes a number")),
        None => or,
    };
    let (objects, seed) = (value("--objects", 100_000), value("--seed", SEED));
    match args.first().map(String::as_str) {
        Some("--bites") => bites(objects, seed),
        Some("--bench") => {
            bench::run();
            ExitCode::SUCCESS
        }
        Some("--smallest") => {
            sample::print_smallest(objects, seed);
            ExitCode::SUCCESS
        }
        Some("--vectors") => {
            vectors::write(Path::new(args.get(1).expect("--vectors FOLDER")), seed);
            ExitCode::SUCCESS
        }
        Some("--definition") => {
            let file = Path::new(args.get(1).expect("--definition FILE"));
            definition::write(file, seed, value("--per-sort", 1) as usize);
            reader_vectors::write(&file.with_file_name("ReaderVectors.antt"), seed);
            ExitCode::SUCCESS
        }
        Some("--reader-vectors") => {
            reader_vectors::write(Path::new(args.get(1).expect("--reader-vectors FILE")), seed);
            ExitCode::SUCCESS
        }
        _ => run(objects, seed, args.iter().any(|a| a == "--brief")),
    }
}
