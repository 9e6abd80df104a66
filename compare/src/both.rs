//! One object through both: our two steps, the crate's two, what document 01 says, and where they differ.
use crate::{
    domain::{self, Said},
    ours::{self, Linked, Mapped},
    tables::{Case, Rows, Steps, u32_at},
    theirs::{self, Ended, Ran},
};

/// A fault put into our answer on purpose, to see that it is noticed.
#[derive(Debug, Clone, Copy, PartialEq)]
pub enum Bite {
    MapSlot,
    ImageSlot,
    FuncRecord,
    LineRecord,
    Cause,
    Count,
    Reader,
}

pub const BITES: [Bite; 7] = [Bite::MapSlot, Bite::ImageSlot, Bite::FuncRecord, Bite::LineRecord, Bite::Cause, Bite::Count, Bite::Reader];

pub struct Both {
    pub rows: Rows,
    pub said: Said,
    pub maps: Mapped,
    pub link: Option<Linked>,
    pub ran: Ran,
    /// The crate's map step did not end well, and has changed slots.
    pub touched: bool,
    pub root: u32,
}

pub fn run(case: &Case, bite: Option<Bite>) -> Both {
    let rows = Rows::of(&case.bytes);
    let said = domain::say(case, &rows);
    let mut maps = if case.steps == Steps::CallsAlone { domain::without_maps(case) } else { ours::relocate_maps(&case.bytes) };
    let mut link = (maps.number == 0).then(|| ours::link(case, &maps.slots));
    let (ran, touched) = theirs::run(case, &rows);
    if let Some(bite) = bite {
        bitten(bite, &mut maps, link.as_mut());
    }
    Both { rows, said, maps, link, ran, touched, root: case.root }
}

fn bitten(bite: Bite, maps: &mut Mapped, link: Option<&mut Linked>) {
    let number = link.as_ref().map_or(maps.number, |l| l.number);
    let flip = |bytes: &mut [u8], at: usize| bytes[at] ^= 1;
    match (bite, link) {
        (Bite::MapSlot, _) if number == 0 => flip(&mut maps.slots, 6),
        (Bite::ImageSlot, Some(l)) if number == 0 => flip(&mut l.out[0], l.places[0] as usize * 8 - 1),
        (Bite::FuncRecord, Some(l)) if number == 0 && l.places[1] > 0 => flip(&mut l.out[1], 0),
        (Bite::LineRecord, Some(l)) if number == 0 && l.places[2] > 0 => flip(&mut l.out[2], l.places[2] as usize * 16 - 16),
        (Bite::Count, Some(l)) if number == 0 && l.places[2] > 0 => l.places[2] -= 1,
        (Bite::Cause, Some(l)) if number == 10 => l.number = 3,
        (Bite::Cause, None) if number != 0 => maps.number = if number == 3 { 4 } else { 3 },
        _ => {}
    }
}

fn rows_of<const N: usize>(bytes: &[u8], count: u32) -> Vec<[u32; N]> {
    let size = 4 * N;
    bytes.chunks_exact(size).take(count as usize).map(|r| std::array::from_fn(|i| u32_at(r, 4 * i))).collect()
}

impl Both {
    /// The number of our two steps.
    pub fn number(&self) -> u32 {
        self.link.as_ref().map_or(self.maps.number, |l| l.number)
    }

    /// How the crate's two steps ended, in a word.
    pub fn crate_ended(&self) -> &'static str {
        match (&self.ran.maps, &self.ran.calls) {
            (_, Some(Ended::Ok(_))) => "ok",
            (Ended::Panic, _) | (_, Some(Ended::Panic)) => "panic",
            _ => "error",
        }
    }

    /// Where our answer is not what the crate's is, if anywhere.
    pub fn difference(&self) -> Option<String> {
        match (&self.ran.maps, self.maps.number) {
            (Ended::Panic, n) => return Some(format!("map step: ours {n}, the crate panics")),
            (Ended::Err(c), n) if n != c.number() => return Some(format!("map step: ours {n}, the crate {c:?}")),
            (Ended::Err(_), _) => return None,
            (Ended::Ok(slots), 0) => {
                if slots.concat() != self.maps.slots {
                    return Some("slots after the map step".to_string());
                }
            }
            (Ended::Ok(_), n) => {
                let then = self.ran.calls.as_ref().map(tag);
                return Some(format!("map step: ours {n}, the crate goes on; its link: {}", then.unwrap_or_default()));
            }
        }
        let link = self.link.as_ref()?;
        match self.ran.calls.as_ref()? {
            Ended::Panic => Some(format!("link: ours {}, the crate panics", link.number)),
            Ended::Err(c) => (link.number != c.number()).then(|| format!("link: ours {}, the crate {c:?}", link.number)),
            Ended::Ok(_) if link.number != 0 => Some(format!("link: ours {}, the crate accepts", link.number)),
            Ended::Ok(image) => self.image_difference(link, image).map(|d| d.to_string()),
        }
    }

    fn image_difference(&self, link: &Linked, image: &theirs::Image) -> Option<&'static str> {
        let [slots, funcs, lines] = link.places;
        let used = [slots as usize * 8, funcs as usize * 8, lines as usize * 16];
        let part = |i: usize| link.out[i].get(..used[i]).unwrap_or(&[]);
        let checks = [
            (image.slots.len() == slots as usize && image.slots.concat() == part(0), "the image's slots"),
            (image.funcs == rows_of::<2>(part(1), funcs), "function records"),
            (image.func_bytes == part(1), "function records, encoded"),
            (image.lines == rows_of::<4>(part(2), lines), "line records"),
            (image.line_bytes == part(2), "line records, encoded"),
            (image.func_num == funcs, "num_info of the function records"),
            (image.line_num == lines, "num_info of the line records"),
        ];
        checks.into_iter().find(|(same, _)| !same).map(|(_, what)| what)
    }

    /// Where our answer is not what document 01 says, inside the domain or not: number, places and every lent buffer.
    pub fn against_model(&self) -> Option<String> {
        let (ours, said) = (&self.maps, &self.said.maps);
        if ours != said {
            let what = if ours.slots == said.slots { "" } else { ", or other slots" };
            return Some(format!("map step gave {} {:?}, not {} {:?}{what}", ours.number, ours.places, said.number, said.places));
        }
        match (&self.link, &self.said.link) {
            (ours, said) if ours == said => None,
            (Some(ours), Some(said)) => {
                let what = if ours.out == said.out { "" } else { ", or other bytes" };
                Some(format!("link gave {} {:?}, not {} {:?}{what}", ours.number, ours.places, said.number, said.places))
            }
            (ours, _) => Some(format!("link: {}", if ours.is_some() { "ours alone went on to it" } else { "ours did not come to it" })),
        }
    }
}

fn tag(c: &Ended<theirs::Image>) -> String {
    match c {
        Ended::Ok(_) => "accepts".to_string(),
        Ended::Err(e) => format!("{e:?}"),
        Ended::Panic => "panics".to_string(),
    }
}
