//! The controller of `examples/station.c` in Rust: it prints the same.
//!
//! station LENS [STEPS]: a lens as in samples/, and the steps of a scan (1). The exit status is 1 if a promise was not
//! kept.

mod slots;

use pilingrue::{
    ACCEPTED, BAD_PARAMETER, Beam, COUNTS_OUTCOME, COUNTS_STEPS, COUNTS_SURFACE, DONE, MALFORMED, MOST_RECORDS,
    RECORD_NUMBERS, RECORD_STEPS, RUNNING, Record, STATE_DOES_NOT_FIT, STEPS_BICONIC, VERSION, Verdict, reach,
};
use slots::{CHANNEL_BYTES, Channel, Restored, SLOT_BYTES, Slots, checksum};
use std::process::ExitCode;

/// The file of a lens begins with the beam: 4 bytes of length and kind, then origin, direction and index. The recipe
/// stands behind.
const BEAM_BYTES: usize = 60;

/// Where a channel's numbers begin: behind turn, recipe and counts.
const NUMBERS_AT: usize = 8 * (2 + pilingrue::COUNTS);

/// No trace takes more scans.
const ALL: usize = MOST_RECORDS * STEPS_BICONIC as usize;

const BLANK_RECORD: [f64; RECORD_NUMBERS] = [0.0; RECORD_NUMBERS];

const MEANING: [&str; 13] = [
    "blank",
    "hit",
    "bad parameter",
    "negative semi-diameter",
    "singular",
    "outside the domain",
    "missed",
    "vignetted",
    "total internal reflection",
    "not finite",
    "malformed recipe",
    "buffer too short",
    "state does not fit",
];

struct Station {
    recipe: Vec<u8>,
    beam: Beam,
    steps: u16,
    surfaces: usize,
    slots: Slots,
    live: Channel,
    unbroken: Channel,
    /// What the last call left, so what has to come back with the power.
    last: Channel,
    broken: bool,
}

fn beam_of(file: &[u8]) -> Option<Beam> {
    let number = |i: usize| Some(f64::from_le_bytes(*file.get(4 + 8 * i..)?.first_chunk()?));
    Some(Beam {
        origin: [number(0)?, number(1)?, number(2)?],
        direction: [number(3)?, number(4)?, number(5)?],
        index: number(6)?,
    })
}

fn same_bits(a: &[f64], b: &[f64]) -> bool {
    a.iter().map(|x| x.to_bits()).eq(b.iter().map(|x| x.to_bits()))
}

fn show_record(record: Record) {
    match record {
        Record::Blank => print!(" | blank"),
        Record::Hit { point: [x, y, z], .. } => print!(" | {x:.3} {y:.3} {z:.3}"),
        Record::Vignetted { r, limit, .. } => print!(" | vignetted, {r:.3} of {limit:.3}"),
        Record::Refused { number, .. } => print!(" | {}", MEANING[number as usize]),
    }
}

fn number_of(answer: Result<(), Verdict>) -> u64 {
    answer.map_or_else(|refused| refused.number, |()| ACCEPTED)
}

impl Station {
    fn promise(&mut self, holds: bool, what: &str) {
        if !holds {
            println!("NOT KEPT: {what}");
            self.broken = true;
        }
    }

    fn beam_at(&self, x: f64) -> Beam {
        let [_, y, z] = self.beam.origin;
        Beam { origin: [x, y, z], ..self.beam }
    }

    /// Anew: of the trace before nothing must come back, even if the power fails before this one is kept.
    fn begin(&mut self, x: f64) -> u64 {
        let beam = self.beam_at(x);
        self.slots.forget();
        self.live.recipe = checksum(&self.recipe);
        number_of(self.live.trace(&self.recipe).start(&beam))
    }

    fn go_on(&mut self) -> u64 {
        number_of(self.live.trace(&self.recipe).resume(self.steps))
    }

    /// What follows each call, and whether the trace goes on. A verdict other than 1 means: stop, show nothing, start
    /// anew.
    fn heed(&mut self, number: u64) -> bool {
        if number == ACCEPTED {
            return self.slots.keep(&mut self.live, checksum(&self.recipe));
        }
        self.slots.stop(&mut self.live);
        false
    }

    fn trace_unbroken(&mut self, x: f64) -> Result<(), Verdict> {
        let beam = self.beam_at(x);
        self.unbroken.trace(&self.recipe).whole(&beam)
    }

    fn last_record(&self) -> Record {
        Record::at(&self.live.buffer, self.surfaces - 1)
    }

    /// Those records are finished whose steps, added up from the first, are at most the trace's. They are the unbroken
    /// trace's, and all else is blank, to the buffer's end.
    fn as_unbroken(&self) -> bool {
        let made = self.live.state.counts[COUNTS_STEPS] as f64;
        let shown = self.live.buffer.chunks_exact(RECORD_NUMBERS);
        let whole = self.unbroken.buffer.chunks_exact(RECORD_NUMBERS);
        let mut sum = 0.0;
        shown.zip(whole).all(|(shown, whole)| {
            sum += whole[RECORD_STEPS];
            same_bits(shown, if sum <= made { whole } else { &BLANK_RECORD })
        })
    }

    fn ends_as_unbroken(&self) -> bool {
        let (live, unbroken) = (&self.live, &self.unbroken);
        live.state.counts == unbroken.state.counts
            && same_bits(&live.state.numbers, &unbroken.state.numbers)
            && same_bits(&live.buffer, &unbroken.buffer)
    }

    /// What the operator sees: each surface, and what the cell does with the last.
    fn show(&self) {
        (0..self.surfaces).for_each(|i| show_record(Record::at(&self.live.buffer, i)));
        let cell = match self.last_record() {
            Record::Hit { .. } => "glues",
            Record::Blank => "reads blank",
            _ => "does not glue",
        };
        println!(" | the cell {cell}");
    }

    /// The answer to a call, after the station heeded it.
    fn answered(&mut self, number: u64, expected: u64, goes_on: bool) {
        if number != ACCEPTED {
            print!(" is refused, {}", MEANING[number as usize]);
        } else if !goes_on {
            print!(" met another recipe");
        }
        self.show();
        self.promise(number == expected, "what a call answers");
        self.promise(self.as_unbroken(), "a record is the unbroken trace's or blank");
        self.last = self.live.clone();
    }

    fn start(&mut self, x: f64, expected: u64) {
        let number = self.begin(x);
        let blank = same_bits(&self.live.buffer, &Channel::blank().buffer);
        self.promise(blank, "a start leaves nothing of the lens before");
        let goes_on = self.heed(number);
        let _ = self.trace_unbroken(x);
        print!("start");
        self.answered(number, expected, goes_on);
    }

    /// From one scan to another, or to a stop or the trace's end.
    fn scans(&mut self, from: usize, to: usize, expected: u64) {
        for n in from..=to {
            let number = self.go_on();
            let unchanged = self.live.bytes() == self.last.bytes();
            let goes_on = self.heed(number);
            self.promise(number == ACCEPTED || unchanged, "a refused scan writes nothing");
            print!("scan {n}");
            self.answered(number, expected, goes_on);
            if !goes_on {
                return;
            }
            if self.live.state.counts[COUNTS_OUTCOME] != RUNNING {
                self.promise(self.ends_as_unbroken(), "a trace ends as the unbroken one");
                return;
            }
        }
        self.promise(to < ALL, "scans come to an end");
    }

    /// The power fails outside a call.
    fn lose_live(&mut self) {
        self.live = Channel::of(&[0xA5; CHANNEL_BYTES]);
    }

    /// The power fails inside a call: the state is torn, with the counts of after it and the numbers of before.
    fn tear_live(&mut self) {
        self.go_on();
        self.live.state.numbers = self.last.state.numbers;
    }

    /// The power fails, and one byte of the newest copy is not what was written.
    fn spoil_copy(&mut self, at: usize) {
        self.slots.of_turn(self.live.turn)[at] ^= 0xFF;
        self.lose_live();
    }

    /// The power fails in a copy: the byte that was under way is spoiled, and behind it stands what was there.
    fn cut_copy(&mut self, was: &[u8], at: usize) {
        self.slots.of_turn(self.live.turn)[at + 1..].copy_from_slice(&was[at + 1..]);
        self.spoil_copy(at);
    }

    /// The power fails, and the copies are those of a program with another version.
    fn age_copies(&mut self) {
        for slot in &mut self.slots.memory {
            let (copy, sum) = slot.split_at_mut(CHANNEL_BYTES);
            let aged = Channel { version: VERSION - 1, ..Channel::of(copy) };
            copy.copy_from_slice(&aged.bytes());
            sum.copy_from_slice(&checksum(copy).to_le_bytes());
        }
        self.lose_live();
    }

    fn come_back(&mut self, expected: Restored) {
        let found = self.slots.restore(&mut self.live, checksum(&self.recipe));
        self.promise(found == expected, "what comes back with the power");
        let due = if expected == Restored::Last { self.last.bytes() } else { vec![0; CHANNEL_BYTES] };
        let what = "the power brings back what the last accepted call left, or nothing";
        self.promise(self.live.bytes() == due, what);
        self.last = self.live.clone();
    }

    fn power_cycle(&mut self, failed: &str, expected: Restored) {
        let but = match expected {
            Restored::Last => "",
            Restored::NoWholeCopy => ": no copy is whole",
            Restored::AnotherVersion => ": the version is another",
            Restored::AnotherRecipe => ": the recipe is another",
        };
        self.come_back(expected);
        print!("{failed}, and comes back{but}");
        self.show();
    }

    /// Another number in the recipe, or another kind; the same flip puts it back.
    fn flip_recipe(&mut self, at: usize, bits: u8) {
        self.recipe[at] ^= bits;
    }

    fn last_place(&self) -> usize {
        let (mut at, mut next) = (0, 0);
        while next < self.recipe.len() {
            at = next;
            next += 2 + usize::from(u16::from_le_bytes([self.recipe[at], self.recipe[at + 1]]));
        }
        at
    }

    /// The copies of the lens before go first: they must not come back once the next lens is in the holder.
    fn change_lens(&mut self, title: &str) {
        self.slots.forget();
        println!("\n{title}");
    }

    fn beam_is_there(&mut self, x: f64) {
        self.change_lens("Lens 1: the beam is there.");
        self.start(x, ACCEPTED);
        self.scans(1, ALL, ACCEPTED);
    }

    fn beam_is_lost(&mut self) {
        self.change_lens("Lens 2: the beam is lost, and the sensor gives no number. The channel had lens 1.");
        self.start(f64::NAN, BAD_PARAMETER);
        self.scans(1, ALL, STATE_DOES_NOT_FIT);
        self.lose_live();
        self.power_cycle("the power fails", Restored::NoWholeCopy);
    }

    fn power_fails_at_calls(&mut self, x: f64) {
        self.change_lens("Lens 3: the power fails between two calls, then inside one.");
        self.start(x, ACCEPTED);
        self.lose_live();
        self.come_back(Restored::Last);
        self.scans(1, 1, ACCEPTED);
        self.lose_live();
        self.power_cycle("the power fails", Restored::Last);
        self.scans(2, 2, ACCEPTED);
        self.tear_live();
        self.power_cycle("the power fails inside scan 3", Restored::Last);
        self.scans(3, ALL, ACCEPTED);
    }

    fn scan_unseen(&mut self) {
        let number = self.go_on();
        let _ = self.heed(number);
    }

    /// The copy of a scan is cut or spoiled at several bytes, and the scan before it comes back each time.
    fn spoil_copies(&mut self, was: &[u8]) {
        for at in [0, 1, NUMBERS_AT, SLOT_BYTES / 2, SLOT_BYTES - 1] {
            self.scan_unseen();
            self.cut_copy(was, at);
            self.come_back(Restored::Last);
            self.scan_unseen();
            self.spoil_copy(at);
            self.come_back(Restored::Last);
        }
    }

    fn power_fails_in_copies(&mut self, x: f64) {
        let title =
            "Lens 4: the power fails before the start; then in the copy of a start anew, and in that of a scan.";
        self.change_lens(title);
        self.lose_live();
        self.power_cycle("the power fails", Restored::NoWholeCopy);
        self.start(x, ACCEPTED);
        self.scans(1, 1, ACCEPTED);
        self.start(x, ACCEPTED);
        self.cut_copy(&[0; SLOT_BYTES], SLOT_BYTES / 2);
        self.power_cycle("the power fails in the copy of the start", Restored::NoWholeCopy);
        self.start(x, ACCEPTED);
        self.scans(1, 1, ACCEPTED);
        let was = self.slots.of_turn(self.live.turn + 1).to_vec();
        self.spoil_copies(&was);
        self.scan_unseen();
        self.cut_copy(&was, SLOT_BYTES / 2);
        self.power_cycle("the power fails in the copy of scan 2", Restored::Last);
        self.scans(2, ALL, ACCEPTED);
    }

    fn recipe_is_exchanged(&mut self, x: f64) {
        let at = self.recipe.len() - 2; // in the last number, so in a semi-diameter where that is last
        let title = "Lens 5: the recipe's last number is exchanged, while the power is off and then between two scans.";
        self.change_lens(title);
        self.start(x, ACCEPTED);
        self.scans(1, 1, ACCEPTED);
        self.lose_live();
        self.flip_recipe(at, 8);
        self.power_cycle("the power fails", Restored::AnotherRecipe);
        self.start(x, ACCEPTED);
        self.scans(1, 1, ACCEPTED);
        self.flip_recipe(at, 8);
        self.scans(2, ALL, ACCEPTED);
        self.promise(self.live.bytes() == [0; CHANNEL_BYTES], "with another recipe nothing is shown");
        self.lose_live();
        self.come_back(Restored::NoWholeCopy);
        self.start(x, ACCEPTED);
        self.scans(1, ALL, ACCEPTED);
    }

    fn recipe_goes_bad(&mut self, x: f64) {
        let at = self.last_place() + 2;
        self.change_lens("Lens 6: the recipe's memory goes bad between two scans, in the kind of the last surface.");
        self.start(x, ACCEPTED);
        self.scans(1, 1, ACCEPTED);
        self.flip_recipe(at, 255);
        self.scans(2, ALL, MALFORMED);
        self.flip_recipe(at, 255);
        self.lose_live();
        self.power_cycle("the recipe is loaded again, the power fails", Restored::NoWholeCopy);
        self.start(x, ACCEPTED);
        self.scans(1, ALL, ACCEPTED);
    }

    fn beam_is_knocked_aside(&mut self, x: f64) {
        self.change_lens("Lens 7: the beam is knocked 40 mm aside. The channel had lens 6.");
        self.start(x + 40.0, ACCEPTED);
        self.scans(1, ALL, ACCEPTED);
        let hit = matches!(self.last_record(), Record::Hit { .. });
        self.promise(hit == (self.unbroken.state.counts[COUNTS_OUTCOME] == DONE), "no hit without a beam");
    }

    fn program_is_exchanged(&mut self, x: f64) {
        self.change_lens("Lens 8: the program is exchanged while the power is off, for one of another version.");
        self.start(x, ACCEPTED);
        self.scans(1, 1, ACCEPTED);
        self.age_copies();
        self.power_cycle("the power fails", Restored::AnotherVersion);
        self.start(x, ACCEPTED);
        self.scans(1, ALL, ACCEPTED);
    }

    /// The loader asks for one surface, and goes on once the beam is known to hit it.
    fn ask(&mut self, x: f64, surface: usize, expected: u64) {
        let answer = reach(&self.recipe, &self.beam_at(x), surface as u64);
        let (refused, record, due) = match answer {
            Ok(record) => (None, record, Record::at(&self.unbroken.buffer, surface)),
            Err(verdict) => (Some(verdict.number), Record::Blank, Record::Blank),
        };
        let why = refused.map(|number| format!(", which is refused, {}", MEANING[number as usize]));
        print!("the loader asks for surface {surface}{}", why.unwrap_or_default());
        show_record(record);
        println!(" | it {}", if matches!(record, Record::Hit { .. }) { "goes on" } else { "waits" });
        self.promise(refused.unwrap_or(ACCEPTED) == expected, "what a question answers");
        self.promise(record == due, "a surface's record is the unbroken trace's, and blank after a refusal");
        self.promise(self.live.bytes() == self.last.bytes(), "a question changes nothing of a trace");
    }

    fn loader_asks(&mut self, x: f64) {
        let (surface, at) = ((self.surfaces - 1) / 2, self.last_place() + 2);
        self.change_lens("Lens 9: the loader asks in each scan for a surface, and waits for none behind it.");
        self.start(x, ACCEPTED);
        self.ask(x, surface, ACCEPTED);
        for n in 1..ALL {
            if self.live.state.counts[COUNTS_OUTCOME] != RUNNING {
                break;
            }
            self.scans(n, n, ACCEPTED);
            self.ask(x, surface, ACCEPTED);
        }
        self.flip_recipe(at, 255);
        println!("the recipe's last record is not loaded yet");
        self.ask(x, surface, ACCEPTED);
        self.ask(x, self.surfaces - 1, MALFORMED);
        self.flip_recipe(at, 255);
        self.ask(x, self.surfaces, BAD_PARAMETER);
        self.ask(f64::NAN, surface, BAD_PARAMETER);
        println!("the beam is knocked 40 mm aside");
        let _ = self.trace_unbroken(x + 40.0);
        self.ask(x + 40.0, surface, ACCEPTED);
    }

    fn work(&mut self, x: f64) {
        self.beam_is_there(x);
        self.beam_is_lost();
        self.power_fails_at_calls(x);
        self.power_fails_in_copies(x);
        self.recipe_is_exchanged(x);
        self.recipe_goes_bad(x);
        self.beam_is_knocked_aside(x);
        self.program_is_exchanged(x);
        self.loader_asks(x);
    }

    /// A new lens is tried once as a whole. It has a surface before the last.
    fn suits(&mut self, x: f64) -> bool {
        let answer = self.trace_unbroken(x);
        let counts = self.unbroken.state.counts;
        self.surfaces = counts[COUNTS_SURFACE] as usize;
        let (number, place) = answer.map_or_else(|v| (v.number, v.place), |()| (counts[COUNTS_OUTCOME], 0));
        if number != DONE {
            eprintln!("station: {}, place {place}", MEANING[number as usize]);
        }
        number == DONE && self.surfaces > 1
    }
}

fn arguments() -> Option<(Vec<u8>, Beam, u16)> {
    let words: Vec<String> = std::env::args().collect();
    let (path, steps) = match &words[..] {
        [_, path] => (path, 1),
        [_, path, steps] => (path, steps.parse().ok().filter(|steps| *steps > 0)?),
        _ => return None,
    };
    let file = std::fs::read(path).ok()?;
    let beam = beam_of(&file)?;
    Some((file[BEAM_BYTES..].to_vec(), beam, steps))
}

fn main() -> ExitCode {
    let Some((recipe, beam, steps)) = arguments() else {
        eprintln!("usage: station LENS [STEPS]");
        return ExitCode::from(2);
    };
    let [live, unbroken, last] = [(); 3].map(|()| Channel::blank());
    let slots = Slots::new();
    let mut station = Station { recipe, beam, steps, surfaces: 0, slots, live, unbroken, last, broken: false };
    let x = beam.origin[0];
    station.promise(pilingrue::version() == VERSION, "header and archive have one version");
    if !station.suits(x) {
        return ExitCode::from(2);
    }
    println!("interface {VERSION}, surfaces {}, steps a scan {steps}", station.surfaces);
    station.work(x);
    println!("\n{}", if station.broken { "A PROMISE WAS NOT KEPT" } else { "every promise was kept" });
    ExitCode::from(station.broken as u8)
}
