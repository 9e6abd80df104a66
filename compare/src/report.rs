//! What a run met, counted; and what it had to meet.
use crate::{
    both::Both,
    domain::CAUSES,
    generate::KINDS,
    readers::{self, Read},
    tables::{Case, NONE},
};

/// What an accepted object inside the domain shows.
pub const FEATURES: [&str; 10] = [
    "a function appended",
    "the root's copy appended",
    "four or more functions appended",
    "a reference by wide load",
    "a map without data",
    "a map with data",
    "function records appended",
    "line records appended",
    "an image of 4,096 slots",
    "the map clause that is not needed, broken",
];

#[derive(Default, Clone)]
pub struct Outside {
    pub objects: u64,
    pub alone: u64,
    pub equal: u64,
    pub ok: u64,
    pub error: u64,
    pub panic: u64,
}

#[derive(Default)]
pub struct Report {
    pub objects: u64,
    pub kinds: [[u64; 3]; KINDS.len()],
    pub numbers: [[u64; 15]; 3],
    pub inside: [u64; 15],
    pub features: [u64; FEATURES.len()],
    pub outside: Vec<Outside>,
    pub touched: u64,
    pub readers: [[u64; 4]; readers::CAUSES.len()],
}

impl Report {
    pub fn new() -> Self {
        Self { outside: vec![Outside::default(); CAUSES.len()], ..Self::default() }
    }

    pub fn add(&mut self, case: &Case, both: &Both) {
        self.objects += 1;
        self.kinds[case.kind][0] += 1;
        self.numbers[0][both.maps.number as usize] += 1;
        if let Some(link) = &both.link {
            self.numbers[1][link.number as usize] += 1;
        }
        self.touched += u64::from(both.touched);
        if both.said.inside() {
            self.kinds[case.kind][1] += 1;
            self.kinds[case.kind][2] += u64::from(both.number() == 0);
            self.inside[both.number() as usize] += 1;
            self.add_features(both);
        }
        for &cause in &both.said.outside {
            let o = &mut self.outside[cause];
            o.objects += 1;
            if both.said.outside.len() == 1 {
                o.alone += 1;
                match (both.difference(), both.crate_ended()) {
                    (None, _) => o.equal += 1,
                    (_, "ok") => o.ok += 1,
                    (_, "panic") => o.panic += 1,
                    _ => o.error += 1,
                }
            }
        }
    }

    fn add_features(&mut self, both: &Both) {
        self.features[9] += u64::from(both.said.spare_clause);
        let Some(link) = both.said.link.as_ref().filter(|l| l.number == 0) else { return };
        let rows = &both.rows;
        let mut appended = both.said.reached.clone();
        appended.sort_unstable();
        appended.dedup();
        let source = |slots: &[[u8; 8]], s: u8| slots.iter().any(|i| i[0] == 0x18 && i[1] >> 4 == s);
        let slots_of = |bytes: &[u8]| bytes.chunks_exact(8).map(|c| c.try_into().unwrap()).collect::<Vec<[u8; 8]>>();
        let (image, mapped) = (slots_of(&link.out[0]), slots_of(&both.said.maps.slots));
        let mapped_now = |s: u8| mapped.iter().zip(&rows.slots).any(|(a, b)| a != b && a[0] == 0x18 && a[1] >> 4 == s);
        let has = |count: fn(&crate::tables::Function) -> u32| appended.iter().any(|&f| count(&rows.functions[f]) > 0);
        let shown = [
            !appended.is_empty(),
            appended.contains(&(both.root as usize)),
            appended.len() >= 4,
            source(&image, 4) && rows.symbols.iter().any(|s| s.section != NONE),
            mapped_now(1),
            mapped_now(2),
            has(|f| f.funcs),
            has(|f| f.lines),
            link.places[0] == 4096,
        ];
        for (count, shown) in self.features.iter_mut().zip(shown) {
            *count += u64::from(shown);
        }
    }

    pub fn add_read(&mut self, read: &Read) {
        self.numbers[2][read.number as usize] += 1;
        let row = &mut self.readers[read.cause];
        row[0] += 1;
        row[1] += u64::from(read.differs.is_none());
        row[2] += u64::from(read.differs.is_some() && !read.panicked);
        row[3] += u64::from(read.panicked);
    }

    pub fn inside_all(&self) -> u64 {
        self.inside.iter().sum()
    }

    pub fn print(&self) {
        println!("\n{:30} {:>9} {:>9} {:>9}", "kind of object", "objects", "inside", "accepted");
        for ((name, _), [objects, inside, accepted]) in KINDS.iter().zip(self.kinds) {
            println!("{name:30} {objects:9} {inside:9} {accepted:9}");
        }
        println!("{:30} {:9} {:9} {:9}", "all", self.objects, self.inside_all(), self.inside[0]);
        println!("\nour answers{}", (0..15).map(|n| format!("{n:>8}")).collect::<String>());
        for (name, counts) in ["map step   ", "link       ", "readers    "].iter().zip(self.numbers) {
            println!("{name}{}", counts.map(|c| format!("{c:>8}")).concat());
        }
        println!("inside     {}", self.inside.map(|c| format!("{c:>8}")).concat());
        println!("\ninside the domain, accepted, with");
        for (name, count) in FEATURES.iter().zip(self.features) {
            println!("  {name:44} {count:9}");
        }
        println!("\noutside the domain: each cause, and the objects that have it alone");
        println!(
            "{:34} {:>8} {:>8} {:>8} {:>14} {:>10} {:>8}",
            "cause", "objects", "alone", "equal", "crate accepts", "crate errs", "panics"
        );
        for (name, o) in CAUSES.iter().zip(&self.outside) {
            println!("{name:34} {:8} {:8} {:8} {:14} {:10} {:8}", o.objects, o.alone, o.equal, o.ok, o.error, o.panic);
        }
        println!("map steps that the crate did not end well, with slots changed all the same: {}", self.touched);
        println!("\n{:34} {:>8} {:>8} {:>14} {:>19}", "record readers", "inputs", "equal", "crate reads", "panics");
        for (name, [all, equal, reads, panics]) in readers::CAUSES.iter().zip(self.readers) {
            println!("{name:34} {all:8} {equal:8} {reads:14} {panics:19}");
        }
    }

    /// What was never met. A run that leaves something here shows nothing of it, and fails.
    pub fn missing(&self) -> Vec<String> {
        let mut missing = Vec::new();
        let mut need = |met: bool, what: String| {
            if !met {
                missing.push(what);
            }
        };
        for ((name, _), counts) in KINDS.iter().zip(self.kinds) {
            need(counts[0] > 0, format!("kind of object: {name}"));
        }
        for n in 0..15 {
            need((0..3).any(|s| self.numbers[s][n] > 0), format!("our answer {n}"));
        }
        for n in [0, 3, 4, 5, 10] {
            need(self.inside[n] > 0, format!("inside the domain, our answer {n}"));
        }
        for (name, count) in FEATURES.iter().zip(self.features) {
            need(count > 0, format!("inside the domain: {name}"));
        }
        for (name, o) in CAUSES.iter().zip(&self.outside) {
            need(o.alone > 0, format!("outside for this cause alone: {name}"));
            // the crate has an error of its own for an unknown program; every other cause makes a difference
            need(o.alone > o.equal || name.starts_with("13"), format!("a difference by this cause alone: {name}"));
            // a wrapped sum that leads to another function: the crate binds the call to it
            need(o.ok > 0 || !name.starts_with("top immediate"), format!("a call bound to another function: {name}"));
        }
        need(self.touched > 0, "a map step of the crate that fails with slots changed".to_string());
        for (name, counts) in readers::CAUSES.iter().zip(self.readers) {
            need(counts[0] > 0, format!("readers: {name}"));
        }
        missing
    }
}
