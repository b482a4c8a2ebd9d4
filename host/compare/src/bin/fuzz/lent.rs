//! A call of the joiner: what is asked, and what is lent for it, every table between guards.
use reference::book::{Answer, Call, Kind};
use reference::cells::Cells as Asking;
use reference::outcome::{roots, Outcome};
use reference::strain::{Lists, Side, TotalTables};
use reference::table::{Declined, State, Tables as View};
use tugrelis::{raw, Cells, Sums, Tables};

/// Places before and behind a lent table, and what they hold.
pub const GUARD: usize = 3;
const MARK: u8 = 77;

/// What the place for a count holds before the call.
const NO_COUNT: u32 = 7;

#[derive(Clone, Copy, PartialEq, Eq, PartialOrd, Ord, Debug)]
pub enum What {
    Open,
    Enrol,
    Seam,
    Crossing,
    Point,
    Lookup,
    FaceRow,
    CurveRow,
    PointRow,
    Total,
    Strain,
    Request,
    Fill,
}

pub const WHATS: [What; 13] = [
    What::Open,
    What::Enrol,
    What::Seam,
    What::Crossing,
    What::Point,
    What::Lookup,
    What::FaceRow,
    What::CurveRow,
    What::PointRow,
    What::Total,
    What::Strain,
    What::Request,
    What::Fill,
];

impl What {
    pub fn name(self) -> &'static str {
        ["open", "enrol", "seam", "crossing", "point", "lookup", "face row", "curve row", "point row", "total", "strain", "request", "fill"][self as usize]
    }

    /// The tables that the call is lent, by their places in `words` and `longs`.
    pub fn lent(self) -> (&'static [usize], &'static [usize]) {
        match self {
            What::Open => (&[0, 1, 2, 3, 4, 5, 6, 7, 8, 9, 10, 11, 12, 13], &[0, 1, 2, 3, 4, 5, 6]),
            What::Enrol => (&[0, 1, 2, 3, 4, 5], &[0, 1]),
            What::Seam => (&[0, 1, 2, 3], &[]),
            What::Crossing => (&[0, 1, 2, 3, 4, 5, 7, 8, 10, 11], &[0, 1, 3, 4]),
            What::Point => (&[0, 1, 8, 6, 9, 12], &[2, 5]),
            What::Lookup | What::Fill => (&[0, 1, 7, 8], &[5]),
            What::FaceRow | What::CurveRow | What::PointRow => (&[10, 11, 12], &[]),
            What::Total => (&[13], &[6]),
            What::Strain => (&[1, 7, 13], &[6]),
            What::Request => (&[], &[]),
        }
    }

    /// Whether the call is lent the sums.
    pub fn lent_sums(self) -> bool {
        matches!(self, What::Open | What::Total | What::Strain)
    }
}

/// A call with all that it brings. An opening is told extents and entries of the job.
#[derive(Clone, Debug)]
pub struct Asked {
    pub what: What,
    pub job: [u32; 13],
    pub lists: [Vec<u32>; 3],
    pub tables: Tables,
    /// The block, and a seam's upper block.
    pub blocks: [u32; 2],
    pub maps: [Vec<u32>; 2],
    /// The cell of a lookup; its x is the number that a row reading or a total asks for.
    pub cell: [u32; 3],
    /// The readings of the block.
    pub values: Vec<f64>,
    pub kinds: Vec<u8>,
    /// Cells that are looked up together, and the tray for their blocks or answers.
    pub cells: Cells,
    pub tray: Vec<u32>,
}

impl Asked {
    /// The call as the day book has it; none for an opening and for the calls about readings and lists of cells.
    fn call(&self) -> Option<Call<'_>> {
        let ([block, other], [map, upper]) = (self.blocks.map(|b| b as usize), &self.maps);
        let row = |kind: Kind| Call::Row { kind, number: self.cell[0] };
        match self.what {
            What::Open | What::Total | What::Strain | What::Request | What::Fill => None,
            What::Enrol => Some(Call::Enrol { block, map }),
            What::Seam => Some(Call::Seam { blocks: (block, other), maps: (map, upper) }),
            What::Crossing => Some(Call::Crossing { block, map }),
            What::Point => Some(Call::Point { block, map }),
            What::Lookup => Some(Call::Lookup { block, map, cell: self.cell.map(|c| c as usize) }),
            What::FaceRow => Some(row(Kind::Face)),
            What::CurveRow => Some(row(Kind::Curve)),
            What::PointRow => Some(row(Kind::Point)),
        }
    }

    fn state(&self) -> State<'_> {
        State::new(&self.job, [0, 1, 2].map(|a: usize| &self.lists[a][..]), view(&self.tables))
    }

    /// The tables of the readings as the second implementation has them.
    fn totals(&self) -> TotalTables {
        let t = &self.tables;
        TotalTables { came: t.came.clone(), sums: t.face_sums.0.iter().map(|x| x.to_bits()).collect(), counts: t.face_counts.clone() }
    }

    fn bits(&self) -> Vec<u64> {
        self.values.iter().map(|x| x.to_bits()).collect()
    }

    /// The readings of the block brought to the job, by the second implementation.
    fn strained(&self) -> Result<TotalTables, Declined> {
        let lists = Lists { values: &self.bits(), kinds: &self.kinds };
        self.state().strain(&self.totals(), self.blocks[0] as usize, &self.maps[0], lists)
    }

    /// The cells looked up together as the second implementation has them.
    fn asking(&self) -> Asking<'_> {
        Asking { lists: [&self.cells.xs, &self.cells.ys, &self.cells.zs], tray: &self.tray }
    }

    /// What an accepted opening or step leaves.
    pub fn outcome(&self) -> (Outcome, TotalTables) {
        let (state, totals) = (self.state(), self.totals());
        match (self.what, self.call()) {
            (What::Open, _) => (state.opened(), totals.zeroed()),
            (_, Some(call)) => (state.outcome(&call), totals),
            _ => (state.kept(), self.strained().expect("an accepted step")),
        }
    }

    /// What the second implementation answers, and for a refusal 8 what it found.
    pub fn expected(&self) -> (Answer, String) {
        let state = self.state();
        let answer = match (self.what, self.call()) {
            (What::Strain, _) => self.strained().map(|_| Answer::Done),
            (What::Total, _) => state.total(&self.totals(), self.cell[0]).map(Answer::Totals),
            (What::Request, _) => state.request(self.asking()),
            (What::Fill, _) => state.fill(self.asking(), self.blocks[0] as usize, &self.maps[0]),
            (_, Some(call)) => match state.answer(&call) {
                Answer::Refused(8) => Err((8, Some(state.stray(&call).expect("what is stray")))),
                answer => Ok(answer),
            },
            (_, None) => match state.opening(&self.totals()) {
                0 => Ok(Answer::Done),
                n => Err((n, None)),
            },
        };
        match answer {
            Ok(answer) => (answer, String::new()),
            Err((n, why)) => (Answer::Refused(n), why.map_or(String::new(), |stray| format!(" {stray:?}"))),
        }
    }

    /// How many numbers the call is lent.
    pub fn numbers(&self) -> usize {
        let (w, l) = self.what.lent();
        let cells = [&self.cells.xs, &self.cells.ys, &self.cells.zs, &self.tray];
        let brought = self.lists.iter().chain(&self.maps).chain(cells).map(Vec::len).sum::<usize>();
        let readings = self.values.len() + self.kinds.len() + if self.what.lent_sums() { self.tables.face_sums.0.len() } else { 0 };
        readings + brought + w.iter().map(|&i| words(&self.tables)[i].len()).sum::<usize>() + l.iter().map(|&i| longs(&self.tables)[i].len()).sum::<usize>()
    }
}

/// The places that a call may write to, the tables between guards.
#[derive(Clone, PartialEq)]
pub struct Lent {
    pub job: [u32; 13],
    pub words: Vec<Vec<u32>>,
    pub longs: Vec<Vec<u64>>,
    pub sums: Sums,
    pub number: u32,
    pub row: [u32; 6],
    /// The places of a total: two sums by their bits, six counts.
    pub total: ([u64; 2], [u64; 6]),
    /// The tray for the blocks or answers of a list of cells, between guards, and the place for how many blocks are needed.
    pub tray: Vec<u32>,
    pub count: u32,
}

impl Lent {
    pub fn new(asked: &Asked) -> Lent {
        let (words, longs) = (words(&asked.tables).map(guarded), longs(&asked.tables).map(guarded));
        let sums = Sums(guarded(&asked.tables.face_sums.0));
        let (total, tray) = (([7; 2], [7; 6]), guarded(&asked.tray));
        Lent { job: asked.job, words: words.into(), longs: longs.into(), sums, number: 7, row: [7; 6], total, tray, count: NO_COUNT }
    }

    /// Every guard holds what it held.
    pub fn guards_hold(&self) -> bool {
        self.words.iter().all(|t| holds(t)) && self.longs.iter().all(|t| holds(t)) && holds(&self.sums.0) && holds(&self.tray)
    }

    /// Makes the call; gives the number of the refusal.
    pub fn call(&mut self, asked: &Asked) -> u32 {
        let ([cx, cy, cz], [b, c], [m, n], [x, y, z]) = (&asked.lists, asked.blocks, &asked.maps, asked.cell);
        let [ticks, blocks, fl, cl, fr, cr, pr, fnum, cnum, pnum, flist, clist, plist, came] = &mut self.words[..] else { unreachable!() };
        let [ticks, blocks, fl, cl, fr, cr, pr, fnum, cnum, pnum, flist, clist, plist, came] =
            [ticks, blocks, fl, cl, fr, cr, pr, fnum, cnum, pnum, flist, clist, plist, came].map(|t| part(t));
        let [fk, ck, pk, ff, cf, pf, counts] = &mut self.longs[..] else { unreachable!() };
        let [fk, ck, pk, ff, cf, pf, counts] = [fk, ck, pk, ff, cf, pf, counts].map(|t| part(t));
        let sums = part(&mut self.sums.0);
        let (job, told, Cells { xs, ys, zs }) = (&mut self.job, &asked.job, &asked.cells);
        match asked.what {
            What::Open => raw::open(
                job, told[1], told[2], told[3], told[4], told[5], told[6], cx, cy, cz, ticks, blocks, fl, cl, fk, ck, pk, fr, cr, pr, fnum, cnum, pnum, ff, cf,
                pf, flist, clist, plist, came, sums, counts,
            ),
            What::Enrol => raw::enrol(job, cx, cy, cz, ticks, blocks, fl, cl, fk, ck, fr, cr, b, m),
            What::Seam => raw::seam(job, cx, cy, cz, ticks, blocks, fl, cl, b, c, m, n),
            What::Crossing => raw::crossing(job, cx, cy, cz, ticks, blocks, fl, cl, fk, ck, fr, cr, fnum, cnum, ff, cf, flist, clist, b, m),
            What::Point => raw::point(job, cx, cy, cz, ticks, blocks, cnum, pk, pr, pnum, pf, plist, b, m),
            What::Lookup => raw::lookup(job, cx, cy, cz, ticks, blocks, fnum, cnum, pf, b, m, x, y, z, &mut self.number),
            What::FaceRow => raw::face_row(job, x, flist, clist, plist, &mut self.row),
            What::CurveRow => raw::curve_row(job, x, flist, clist, plist, &mut self.row),
            What::PointRow => raw::point_row(job, x, flist, clist, plist, &mut self.row),
            What::Total => {
                let mut places = self.total.0.map(f64::from_bits);
                let refusal = raw::total(job, cx, cy, cz, came, sums, counts, x, &mut places, &mut self.total.1);
                self.total.0 = places.map(f64::to_bits);
                refusal
            }
            What::Strain => raw::strain(job, cx, cy, cz, blocks, fnum, came, sums, counts, b, m, &asked.values, &asked.kinds),
            What::Request => raw::request_blocks(job, cx, cy, cz, xs, ys, zs, part(&mut self.tray), &mut self.count),
            What::Fill => raw::fill_cells(job, cx, cy, cz, ticks, blocks, fnum, cnum, pf, xs, ys, zs, b, m, part(&mut self.tray)),
        }
    }

    /// What differs from an outcome; nothing if it is this one.
    pub fn differs(&self, before: &Lent, told: &[u32], (right, totals): &(Outcome, TotalTables)) -> Option<&'static str> {
        let (w, l) = (|i: usize| inner(&self.words[i]), |i: usize| inner(&self.longs[i]));
        let same = [
            ("stage", self.job[0] == right.stage),
            ("extents and entries", self.job[1..7] == *told),
            ("tallies", self.job[7..10] == right.so_far && self.job[10..] == right.numbered),
            ("ticks", w(0) == right.ticks),
            ("blocks", w(1) == right.blocks),
            ("links", (0..2).all(|k| roots(w(2 + k)) == right.roots[k])),
            ("links longer than their place", (2..4).all(|k| (0..).zip(inner(&before.words[k]).iter().zip(w(k))).all(|(x, (old, new))| *old > x || *new <= x))),
            ("keys", (0..3).all(|k| l(k) == right.keys[k])),
            ("rows", (0..3).all(|k| w(4 + k) == right.rows[k])),
            ("numbers", (0..3).all(|k| w(7 + k) == right.numbers[k])),
            ("first positions", (0..3).all(|k| l(3 + k).starts_with(&right.firsts[k]))),
            ("closed rows", (0..3).all(|k| w(10 + k).starts_with(&right.listed[k]))),
            ("ticks of readings", w(13) == totals.came),
            ("sums", inner(&self.sums.0).iter().map(|x| x.to_bits()).eq(totals.sums.iter().copied())),
            ("counts", l(6) == totals.counts),
        ];
        same.iter().find(|(_, same)| !same).map(|&(what, _)| what)
    }

    /// The answer of a call, with the number, row, totals or tray that it left.
    pub fn answer(&self, what: What, refusal: u32) -> Answer {
        let row =
            |places: usize| if self.row[places..].iter().all(|&n| n == 0) { Answer::Row(self.row[..places].to_vec()) } else { Answer::Row(self.row.to_vec()) };
        match (refusal, what) {
            (0, What::Lookup) => Answer::Number(self.number),
            (0, What::FaceRow) => row(2),
            (0, What::CurveRow) => row(4),
            (0, What::PointRow) => row(6),
            (0, What::Total) => Answer::Totals([0, 1].map(|s: usize| Side { sum: self.total.0[s], counts: [0, 1, 2].map(|k| self.total.1[3 * s + k]) })),
            (0, What::Request) => Answer::Tray(self.count, inner(&self.tray).to_vec()),
            // it is lent no place for a count
            (0, What::Fill) => Answer::Tray(self.count.wrapping_sub(NO_COUNT), inner(&self.tray).to_vec()),
            (0, _) => Answer::Done,
            (n, _) => Answer::Refused(n),
        }
    }

    /// Sets back what a reading has answered, but for the guards of its tray.
    pub fn forget_answer(&mut self, before: &Lent) {
        (self.number, self.row, self.total, self.count) = (before.number, before.row, before.total, before.count);
        part(&mut self.tray).copy_from_slice(inner(&before.tray));
    }
}

pub fn guarded<T: Copy + From<u8>>(table: &[T]) -> Vec<T> {
    let guard = [T::from(MARK); GUARD];
    [&guard, table, &guard].concat()
}

/// The table between the guards.
pub fn part<T>(table: &mut [T]) -> &mut [T] {
    let n = table.len();
    &mut table[GUARD..n - GUARD]
}

fn inner<T>(table: &[T]) -> &[T] {
    &table[GUARD..table.len() - GUARD]
}

pub fn holds<T: PartialEq + From<u8>>(table: &[T]) -> bool {
    table[..GUARD].iter().chain(&table[table.len() - GUARD..]).all(|g| *g == T::from(MARK))
}

pub fn words(t: &Tables) -> [&[u32]; 14] {
    [
        &t.ticks,
        &t.blocks,
        &t.face_links,
        &t.curve_links,
        &t.face_rows,
        &t.curve_rows,
        &t.point_rows,
        &t.face_numbers,
        &t.curve_numbers,
        &t.point_numbers,
        &t.face_listed,
        &t.curve_listed,
        &t.point_listed,
        &t.came,
    ]
}

pub fn words_mut(t: &mut Tables) -> [&mut Vec<u32>; 14] {
    [
        &mut t.ticks,
        &mut t.blocks,
        &mut t.face_links,
        &mut t.curve_links,
        &mut t.face_rows,
        &mut t.curve_rows,
        &mut t.point_rows,
        &mut t.face_numbers,
        &mut t.curve_numbers,
        &mut t.point_numbers,
        &mut t.face_listed,
        &mut t.curve_listed,
        &mut t.point_listed,
        &mut t.came,
    ]
}

pub fn longs(t: &Tables) -> [&[u64]; 7] {
    [&t.face_keys, &t.curve_keys, &t.point_keys, &t.face_firsts, &t.curve_firsts, &t.point_firsts, &t.face_counts]
}

pub fn longs_mut(t: &mut Tables) -> [&mut Vec<u64>; 7] {
    [&mut t.face_keys, &mut t.curve_keys, &mut t.point_keys, &mut t.face_firsts, &mut t.curve_firsts, &mut t.point_firsts, &mut t.face_counts]
}

/// The tables as the second implementation has them.
fn view(t: &Tables) -> View<'_> {
    View {
        ticks: &t.ticks,
        blocks: &t.blocks,
        links: [&t.face_links, &t.curve_links],
        keys: [&t.face_keys, &t.curve_keys, &t.point_keys],
        rows: [&t.face_rows, &t.curve_rows, &t.point_rows],
        numbers: [&t.face_numbers, &t.curve_numbers, &t.point_numbers],
        firsts: [&t.face_firsts, &t.curve_firsts, &t.point_firsts],
        listed: [&t.face_listed, &t.curve_listed, &t.point_listed],
    }
}
