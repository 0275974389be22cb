//! Document 01 and the requests of 02 that are met, once more, written from their text alone: what each call answers
//! and writes.
//! It shares nothing with the library; sizes of cases decide between two ways to find windows.

pub mod calls;
pub mod distances;
pub mod exhaustive;
pub mod finer;
pub mod flow;
pub mod mending;
pub mod parts;
pub mod reading;
pub mod reason;
pub mod rings;
pub mod stops;
pub mod text;
pub mod writing;

/// "Time of `to` minus time of `from` is at most `bound`."
#[derive(Clone, Copy, Debug, PartialEq, Eq)]
pub struct Rule {
    pub from: u8,
    pub to: u8,
    pub bound: i32,
}

#[derive(Clone, Debug, PartialEq, Eq)]
pub struct Ticket {
    pub horizon: u32,
    pub owners: Vec<u8>,
    pub rules: Vec<Rule>,
}

#[derive(Clone, Copy, Debug, PartialEq, Eq)]
pub struct Window {
    pub open: u32,
    pub close: u32,
}

/// The counts are those of each device's accepted commitments, in owner order, with those of events that were committed
/// before.
#[derive(Clone, Debug, PartialEq, Eq)]
pub struct Record {
    pub ticket: Ticket,
    pub committed: Vec<bool>,
    pub windows: Vec<Window>,
    pub counts: [u32; DEVICES],
}

/// The caller's device, an event (1 to n) and the window it commits to.
#[derive(Clone, Copy, Debug, PartialEq, Eq)]
pub struct Commitment {
    pub caller: u32,
    pub event: u32,
    pub open: u32,
    pub close: u32,
}

/// What a window may be in a new plan: low and high end of its open, and of its close.
#[derive(Clone, Copy, Debug, PartialEq, Eq)]
pub struct Range {
    pub open: (u32, u32),
    pub close: (u32, u32),
}

/// How the windows are found, of a part also by pairs of opens and closes; a ring is found by trying every walk, or by least
/// sums of walks; shortest paths by trying every path, or in rounds.
#[derive(Clone, Copy, Debug, PartialEq, Eq)]
pub enum Solver {
    Exhaustive,
    Flow,
}

/// Which of the widest windows are taken: those with every open and close the least that any has, or the greatest.
#[derive(Clone, Copy, Debug, PartialEq, Eq)]
pub enum Prefer {
    Earliest,
    Latest,
}

pub const BOTH: [Prefer; 2] = [Prefer::Earliest, Prefer::Latest];

/// Camera, filter wheel, lamps, stage, database.
pub const DEVICES: usize = 5;

/// The database: it sees the events of all devices.
pub const DATABASE: u8 = 4;

/// The greatest count of a device: two bytes hold it.
pub const MOST_ACCEPTED: u32 = 65_535;

/// What a tick of width counts, by owner: 3 for the camera, 1 for wheel, lamps and stage, 0 for the database.
pub const WEIGHTS: [i64; DEVICES] = [3, 1, 1, 1, 0];

/// How many flags are set of the events that each device owns.
pub fn flags(owners: &[u8], committed: &[bool]) -> [u32; DEVICES] {
    let set = |device| owners.iter().zip(committed).filter(|&(&owner, &flag)| owner as usize == device && flag).count();
    std::array::from_fn(|device| set(device) as u32)
}

impl Ticket {
    pub fn events(&self) -> usize {
        self.owners.len()
    }

    /// The rules and the two that are not written for each event: 0 to i: H, i to 0: 0.
    pub fn all_rules(&self) -> Vec<(usize, usize, i64)> {
        let written = self.rules.iter().map(|r| (r.from as usize, r.to as usize, r.bound as i64));
        let mut rules: Vec<(usize, usize, i64)> = written.collect();
        for event in 1..=self.events() {
            rules.push((0, event, self.horizon as i64));
            rules.push((event, 0, 0));
        }
        rules
    }

    /// Any window with open and close in 0 to H, for each event.
    pub fn any_windows(&self) -> Vec<Range> {
        let all = (0, self.horizon);
        vec![Range { open: all, close: all }; self.events()]
    }

    pub fn total(&self, windows: &[Window]) -> i64 {
        let widths = windows.iter().map(|w| w.close as i64 - w.open as i64);
        self.owners.iter().zip(widths).map(|(&owner, width)| WEIGHTS[owner as usize] * width).sum()
    }

    /// The fit set of windows within `ranges` that is widest and then the preferred one; none if none is fit.
    pub fn best(&self, ranges: &[Range], prefer: Prefer, solver: Solver) -> Option<Vec<Window>> {
        match solver {
            Solver::Exhaustive => exhaustive::best(self, ranges, prefer),
            Solver::Flow => flow::best(self, ranges, prefer),
        }
    }
}

impl Record {
    /// A record with every event free and no commitment accepted.
    pub fn new(ticket: Ticket, windows: Vec<Window>) -> Record {
        Record { committed: vec![false; windows.len()], ticket, windows, counts: [0; DEVICES] }
    }

    /// The owner of this event; none where there is no such event.
    pub fn owner(&self, event: u32) -> Option<u32> {
        let place = (event as usize).checked_sub(1)?;
        self.ticket.owners.get(place).map(|&owner| owner as u32)
    }

    /// What each window may be after an event commits, be it for the first time or again: its own is the one named, the other
    /// committed ones stay, free ones keep all they had.
    pub fn ranges_after(&self, commitment: Commitment) -> Vec<Range> {
        let fixed = |w: &Window| Range { open: (w.open, w.open), close: (w.close, w.close) };
        let mut ranges: Vec<Range> = Vec::new();
        for (window, &committed) in self.windows.iter().zip(&self.committed) {
            ranges.push(if committed {
                fixed(window)
            } else {
                Range { open: (0, window.open), close: (window.close, self.ticket.horizon) }
            });
        }
        let named = Window { open: commitment.open, close: commitment.close };
        ranges[commitment.event as usize - 1] = fixed(&named);
        ranges
    }
}
