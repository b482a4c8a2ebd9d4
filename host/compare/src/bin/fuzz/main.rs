//! Calls every entry with arbitrary numbers for jobs, cut lists, tables, maps and records: fuzz SEED ROUNDS [--untimed] [--spoil WHAT].
//! A round is a block labelled, written and read, with the most components of its extents told and a layer of another one printed, or some calls of a joiner's job
//! that is honest but for numbers changed here and there. Compared with the second implementation are each call's refusal, the number, row, totals, blocks or
//! answers of each accepted reading, the printed pages, and job and tables after each accepted step, as far as the rules tell them. Lent tables stand between
//! guards; after a refusal or a reading every lent place must hold what it held, and the guards always. Every refusal of every entry must have come, and every
//! reason for 8.
//! No call may take longer than the numbers that it is lent can explain; long tables are made for that. --untimed leaves this out: for valgrind, which
//! sees every byte read or written (host/run). With --spoil one outcome is changed before it is looked at, which must be reported.
//! Exits 1 if anything is not as it must be.
mod forged;
mod lent;
mod long;

use forged::small;
use lent::{guarded, holds, part, Asked, Lent, What};
use reference::book::Answer;
use reference::pages;
use reference::random::Random;
use std::collections::BTreeMap;
use std::sync::atomic::{AtomicUsize, Ordering};
use std::time::{Duration, Instant};
use tugrelis::{cells, raw};

const SPOILS: [&str; 12] = ["refusal", "number", "row", "total", "blocks", "cells", "left", "most", "print", "kept", "guards", "time"];

/// What must come in a long run: the refusals of each entry, with the reasons for 8.
const COME: [(&str, &str); 18] = [
    ("open", "0,1,2,6"),
    ("enrol", "0,1,2,3,4,5,6,8 Tally,10"),
    ("seam", "0,1,2,3,4,5,6,8 Tally,8 Map,8 Place,8 Way,8 Below,9"),
    ("crossing", "0,1,2,3,4,5,6,8 Tally,8 Map,8 Place,8 Way,8 Below,8 Enrolled,8 Row"),
    ("point", "0,1,2,3,4,5,6,8 Tally,8 Map,8 Place,8 Final,10"),
    ("lookup", "0,1,2,3,4,6,8 Tally,8 Map,8 Place,8 Final"),
    ("face row", "0,1,3,4,6,8 Tally"),
    ("curve row", "0,1,3,4,6,8 Tally"),
    ("point row", "0,1,3,4,6,8 Tally"),
    ("total", "0,1,2,3,4,6,8 Tally,8 Total"),
    ("strain", "0,1,2,3,4,5,6,8 Tally,8 Map,8 Place,8 Final,8 Total,12"),
    ("request", "0,1,2,3,4,6,8 Tally"),
    ("fill", "0,1,2,3,4,6,8 Tally,8 Map,8 Place,8 Final"),
    ("label", "0,1,6"),
    ("most", "0,1"),
    ("print", "0,1,4,6"),
    ("write", "0,1,6"),
    ("read", "0,1,6,11"),
];

/// Rounds from which on everything must have come.
const MANY: u64 = 20_000;

/// How many calls were begun.
static BEGUN: AtomicUsize = AtomicUsize::new(0);

/// Ends the run if a call does not end.
fn watch() {
    std::thread::spawn(|| loop {
        let begun = BEGUN.load(Ordering::Relaxed);
        std::thread::sleep(Duration::from_secs(30));
        if begun > 0 && begun == BEGUN.load(Ordering::Relaxed) {
            println!("fuzz: time wrong: call {begun} of this seed does not end; 1 wrong");
            std::process::exit(1);
        }
    });
}

struct Fuzz {
    random: Random,
    timed: bool,
    spoil: Option<String>,
    rounds: u64,
    calls: usize,
    slowest: (Duration, String),
    given: BTreeMap<(&'static str, String), usize>,
    wrong: usize,
}

impl Fuzz {
    /// Whether an outcome is to be spoiled now: once, and not at the start.
    fn spoiled(&mut self, what: &str) -> bool {
        let now = self.rounds > 100 && self.spoil.as_deref() == Some(what);
        if now {
            self.spoil = None;
        }
        now
    }

    /// Counts what is not as it must be, and prints the first few.
    fn expect(&mut self, what: &str, right: bool, tell: &dyn Fn() -> String) {
        if !right {
            self.wrong += 1;
            if self.wrong <= 5 {
                println!("fuzz: {what} wrong: {}", tell());
            }
        }
    }

    /// Makes a call and looks at all that it leaves.
    fn joiner(&mut self, name: &str, asked: &Asked) {
        let what = asked.what;
        let before = Lent::new(asked);
        let (mut after, mut refusal) = self.timely(name, asked, &before);
        let (expected, why) = asked.expected();
        self.calls += 1;
        *self.given.entry((what.name(), format!("{}{why}", if let Answer::Refused(n) = expected { n } else { 0 }))).or_default() += 1;
        if self.spoiled("refusal") {
            refusal ^= 1;
        }
        if expected != Answer::Done && self.spoil.is_some() {
            self.spoil_reading(what, &expected, &mut after);
        }
        let answer = after.answer(what, refusal);
        let of = match (&answer, &expected) {
            (Answer::Number(_), Answer::Number(_)) => "number",
            (Answer::Row(_), Answer::Row(_)) => "row",
            (Answer::Totals(_), Answer::Totals(_)) => "total",
            (Answer::Tray(..), Answer::Tray(..)) if what == What::Request => "blocks",
            (Answer::Tray(..), Answer::Tray(..)) => "cells",
            _ => "refusal",
        };
        self.expect(of, answer == expected, &|| format!("{name} {} answered {answer:?}, the table says {expected:?}{why}: {}", what.name(), short(asked)));
        if !matches!(expected, Answer::Refused(_) | Answer::Done) {
            after.forget_answer(&before);
        }
        if expected == Answer::Done && answer == expected {
            if self.spoiled("left") {
                after.job[7] ^= 1;
            }
            let differs = after.differs(&before, &asked.job[1..7], &asked.outcome());
            self.expect("left", differs.is_none(), &|| format!("{name} {} left other {}: {}", what.name(), differs.unwrap_or_default(), short(asked)));
        }
        if expected != Answer::Done {
            if self.spoiled("kept") {
                after.job[3] ^= 1;
            }
            self.expect("kept", after == before, &|| format!("{name} {} with {expected:?} changed something: {}", what.name(), short(asked)));
        }
        if self.spoiled("guards") {
            after.words[2][0] ^= 1;
        }
        self.expect("guards", after.guards_hold(), &|| format!("{name} {} wrote outside: {}", what.name(), short(asked)));
    }

    fn spoil_reading(&mut self, what: What, expected: &Answer, after: &mut Lent) {
        if matches!(expected, Answer::Number(_)) && self.spoiled("number") {
            after.number ^= 1;
        }
        if matches!(expected, Answer::Row(_)) && self.spoiled("row") {
            after.row[1] ^= 1;
        }
        if matches!(expected, Answer::Totals(_)) && self.spoiled("total") {
            after.total.0[1] ^= 1;
        }
        if let Answer::Tray(_, tray) = expected {
            if !tray.is_empty() && self.spoiled(if what == What::Request { "blocks" } else { "cells" }) {
                part(&mut after.tray)[tray.len() - 1] ^= 1;
            }
        }
    }

    /// Makes a call within its time: 50 ms, and 200 ns for each number lent. Where other programs hold it up it is made again.
    fn timely(&mut self, name: &str, asked: &Asked, before: &Lent) -> (Lent, u32) {
        let bound = if self.spoiled("time") { Duration::ZERO } else { Duration::from_millis(50) + Duration::from_nanos(200 * asked.numbers() as u64) };
        let mut fastest = Duration::MAX;
        for _ in 0..3 {
            let mut after = before.clone();
            BEGUN.fetch_add(1, Ordering::Relaxed);
            let began = Instant::now();
            let refusal = after.call(asked);
            fastest = fastest.min(began.elapsed());
            if fastest <= bound || !self.timed {
                if fastest > self.slowest.0 {
                    self.slowest = (fastest, format!("{name} {}, {} numbers lent", asked.what.name(), asked.numbers()));
                }
                return (after, refusal);
            }
        }
        self.expect("time", false, &|| format!("{name} {} took {fastest:?}, more than {bound:?}: {}", asked.what.name(), short(asked)));
        let mut after = before.clone();
        let refusal = after.call(asked);
        (after, refusal)
    }

    /// Some calls of one honest job.
    fn job(&mut self) {
        let honest = forged::honest(&mut self.random);
        for _ in 0..4 {
            let mut asked = honest.clone();
            forged::astray(&mut self.random, &mut asked);
            forged::spoil(&mut self.random, &mut asked);
            self.joiner("forged", &asked);
        }
    }

    /// A call about one block, not of the joiner: it gives one of its refusals; nothing changes if it was refused, and no guard ever.
    fn judge(&mut self, what: &'static str, refusal: u32, kept: bool, guards: bool) {
        self.calls += 1;
        *self.given.entry((what, refusal.to_string())).or_default() += 1;
        let listed = COME.iter().any(|(name, list)| *name == what && list.split(',').any(|n| n == refusal.to_string()));
        self.expect(what, listed && guards && (refusal == 0 || kept), &|| format!("answered {refusal}, kept {kept}, guards {guards}"));
    }

    fn numbers(&mut self, length: usize) -> Vec<u32> {
        (0..length).map(|_| small(&mut self.random)).collect()
    }

    fn blocks(&mut self) {
        let extents = [0; 3].map(|_| self.random.pick(&[0, 1, 1, 2, 2, 3, 4, 65]));
        let voxels: usize = extents.iter().map(|&n| usize::from(n)).product();
        let size = if voxels > 200 { 9 } else { cells(extents.map(usize::from)) + usize::from(self.random.once_in(9)) };
        let mut codes = self.numbers(voxels.min(200));
        if self.random.once_in(2) {
            codes.iter_mut().for_each(|code| *code |= 1);
        }
        let (mut map, mut work, mut counts) = (guarded(&self.numbers(size)), guarded(&self.numbers(size)), [7; 3]);
        let [nx, ny, nz] = extents;
        let before = (map.clone(), work.clone(), counts);
        let refusal = raw::label(&codes, nx, ny, nz, part(&mut map), part(&mut work), &mut counts);
        self.judge("label", refusal, before == (map.clone(), work.clone(), counts), holds(&map) && holds(&work));
        self.most(extents, if refusal == 0 { counts } else { [0; 3] });
        self.print();
        if self.random.once_in(3) {
            map = guarded(&self.numbers(size));
        }
        let room = 12 + size.div_ceil(8) + 4 * size + self.random.below(5);
        let mut tray = guarded(&vec![9u8; room.saturating_sub(self.random.below(3) * 4)]);
        let mut length = 7;
        let before = (tray.clone(), length);
        let refusal = raw::write_record(nx, ny, nz, 0, self.random.pick(&[0, 1, 1023]), 0, part(&mut map), part(&mut tray), &mut length);
        self.judge("write", refusal, before == (tray.clone(), length), holds(&tray));
        let mut record: Vec<u8> =
            if refusal == 0 { part(&mut tray)[..length].to_vec() } else { (0..self.random.below(40)).map(|_| self.random.word() as u8).collect() };
        for _ in 0..self.random.below(3) {
            if !record.is_empty() {
                let at = self.random.below(record.len());
                record[at] ^= 1 << self.random.below(8);
            }
        }
        let mut fields = [7; 6];
        let before = (map.clone(), fields);
        let refusal = raw::read_record(&record, part(&mut map), &mut fields);
        self.judge("read", refusal, before == (map.clone(), fields), holds(&map));
    }

    /// The most components of a block, beside the second implementation and the counts of a labelled one.
    fn most(&mut self, extents: [u16; 3], labelled: [u32; 3]) {
        let ([nx, ny, nz], expected) = (extents, reference::maxima::most(extents));
        let mut places = guarded(&[7, 7, 7]);
        let refusal = raw::most_components(nx, ny, nz, part(&mut places).try_into().expect("three places"));
        let mut maxima = part(&mut places).to_vec();
        if expected.is_ok() && self.spoiled("most") {
            maxima[1] ^= 1;
        }
        self.judge("most", refusal, maxima == [7; 3], holds(&places));
        let right = refusal == expected.err().unwrap_or(0) && expected.map_or(true, |most| maxima == most && (0..3).all(|k| labelled[k] <= most[k]));
        self.expect("most", right, &|| format!("{extents:?} answered {refusal} and {maxima:?}, it must be {expected:?}; a labelled block has {labelled:?}"));
    }

    /// A layer of a map printed, beside the second implementation.
    fn print(&mut self) {
        let random = &mut self.random;
        let mut extents = [random.pick(&[1, 2, 8, 9, 17, 64]), random.pick(&[1, 2, 3, 4]), random.pick(&[1, 2, 3, 4])];
        let z = if random.once_in(9) { small(random) } else { random.below(2 * usize::from(extents[2])) as u32 };
        // mostly the right length, or one place more or less
        let [size, room] = [cells(extents.map(usize::from)), pages::length(extents)].map(|n| n + 1 - random.pick(&[0, 1, 1, 1, 1, 1, 1, 1, 2]));
        if random.once_in(4) {
            extents[random.below(3)] = random.pick(&[0, 65, 65_535]);
        }
        let numbers: Vec<u32> = (0..size).map(|_| if random.once_in(4) { random.pick(&[9, 10, 99_999, 100_000]) } else { small(random) }).collect();
        let ([nx, ny, nz], mut map, mut tray) = (extents, guarded(&numbers), guarded(&vec![9u8; room]));
        let (mut other, before) = (tray.clone(), (map.clone(), tray.clone()));
        let refusal = raw::print_layer(nx, ny, nz, z, part(&mut map), part(&mut tray));
        let expected = pages::print(extents, z, part(&mut map), part(&mut other));
        if expected.is_ok() && self.spoiled("print") {
            part(&mut tray)[79] ^= 1;
        }
        let guards = holds(&map) && holds(&tray);
        let right = refusal == expected.err().unwrap_or(0) && tray == other && map == before.0;
        let at = (0..tray.len()).find(|&k| tray[k] != other[k]);
        self.expect("print", right, &|| {
            format!("layer {z} of {extents:?}, tray of {room}, answered {refusal}, it must be {expected:?}; other bytes from {at:?} on: map {map:?}")
        });
        self.judge("print", refusal, before == (map, tray), guards);
    }

    /// Everything that must come has come.
    fn all_came(&mut self) {
        for (what, list) in COME {
            for outcome in list.split(',') {
                let times = self.given.get(&(what, outcome.to_string())).copied().unwrap_or(0);
                self.expect("coverage", times > 0, &|| format!("{what} {outcome} never came"));
            }
        }
    }
}

/// What a call was handed, without long tables.
fn short(asked: &Asked) -> String {
    let text = format!("{asked:?}");
    if text.len() < 6000 {
        text
    } else {
        format!("job {:?}, blocks {:?}, cell {:?}", asked.job, asked.blocks, asked.cell)
    }
}

fn main() {
    let usage = format!("usage: fuzz SEED ROUNDS [--untimed] [--spoil {}]", SPOILS.join("|"));
    let mut words: Vec<String> = std::env::args().skip(1).collect();
    let timed = !words.iter().any(|w| w == "--untimed");
    words.retain(|w| w != "--untimed");
    let (seed, rounds, spoil) = match &words[..] {
        [seed, rounds] => (seed, rounds, None),
        [seed, rounds, flag, what] if flag == "--spoil" && SPOILS.contains(&what.as_str()) => (seed, rounds, Some(what.clone())),
        _ => panic!("{usage}"),
    };
    let (seed, rounds): (u64, u64) = (seed.parse().expect(&usage), rounds.parse().expect(&usage));
    let long = timed && spoil.is_none();
    if timed {
        watch();
    }
    let mut f =
        Fuzz { random: Random::new(seed), timed, spoil, rounds: 0, calls: 0, slowest: (Duration::ZERO, String::new()), given: BTreeMap::new(), wrong: 0 };
    for round in 0..rounds {
        f.rounds = round;
        if f.random.once_in(4) {
            f.blocks();
        } else {
            f.job();
        }
    }
    if long {
        let before = f.calls;
        long::each(&mut Random::new(seed), &mut |name, asked| f.joiner(name, asked));
        println!("fuzz: {} calls with long tables; the slowest call took {} ms: {}", f.calls - before, f.slowest.0.as_millis(), f.slowest.1);
    }
    if rounds >= MANY {
        f.all_came();
    }
    let given: Vec<String> = f.given.iter().map(|((what, n), times)| format!("{what} {n}: {times}")).collect();
    println!("fuzz: seed {seed}, {} calls, {} wrong; {} times each", f.calls, f.wrong, given.join(", "));
    if f.wrong > 0 {
        std::process::exit(1);
    }
}
