//! Calls made many times over on a state that is handed on by value, as one would write them in Rust: what those of state_bench are timed
//! beside. The states have the sizes of its own, and a call stands apart from the loop that makes it, or the compiler is free to draw it in.

use std::hint::black_box;

use crate::edits::{self, Edit, Head, ORIENTATIONS, TURN};

/// The kinds of state_bench that write into a buffer, whose sum is printed.
const LISTS: [u8; 3] = [5, 6, 9];

/// The box of a job that fits nothing.
pub const NO_BOX: [u32; 2] = [0; 2];

/// What is timed: a kind of state_bench, its name, whether a cut of the whole frame stands before it and not a turn, and its box. A state
/// that comes later has its kinds here and in `plain`.
pub const KINDS: [(u8, &str, bool, [u32; 2]); 12] = [
    (1, "a turn and a back, on a sheet", false, NO_BOX),
    (2, "a turn and a back, on a workspace", false, NO_BOX),
    (1, "a cut and a back, on a sheet behind a cut", true, NO_BOX),
    (7, "a refused orientation, on a sheet", false, NO_BOX),
    (8, "a refused orientation, on a workspace", false, NO_BOX),
    (4, "a keep, on a workspace with eight names", false, NO_BOX),
    (3, "a keep and a return, on a workspace with eight names", false, NO_BOX),
    (5, "a list of 39 points behind a turn, on a sheet", false, NO_BOX),
    (6, "a list of 39 points behind a turn, on a workspace", false, NO_BOX),
    (9, "a fit of 39 points behind a turn, on a sheet", false, [1004, 1504]),
    (9, "a fit of 39 points with the height blank, behind a turn, on a sheet", false, [1004, 0]),
    (9, "a refused fit (19) behind a turn, on a sheet", false, [800, 1200]),
];

/// A listing's head with mode and origin, or the number that refuses it.
type Listed = Result<(Head, [u32; 2]), u32>;

/// The points of a load, and the edits that stand.
#[derive(Clone, Copy)]
pub struct Sheet {
    loaded: bool,
    pub frame: [u32; 2],
    pub points: [[u32; 6]; 39],
    count: usize,
    pub primary: usize,
    mode: u32,
    origin: u32,
    edits: [Edit; 64],
    standing: usize,
}

impl Sheet {
    /// The sheet of a listing as the library writes it: its head in six numbers, then six a point.
    pub fn of(listing: &[u32]) -> Sheet {
        let mut points = [[0; 6]; 39];
        points.iter_mut().zip(listing[6..].chunks_exact(6)).for_each(|(place, point)| place.copy_from_slice(point));
        let [width, height, count, primary, mode, origin] = listing[..6].try_into().unwrap();
        Sheet {
            loaded: true,
            frame: [width, height],
            points,
            count: count as usize,
            primary: primary as usize,
            mode,
            origin,
            edits: [TURN; 64],
            standing: 0,
        }
    }

    /// A turn, or a cut of the sheet's whole frame.
    pub fn turn_or_cut(&self, cut: bool) -> Edit {
        let [width, height] = self.frame;
        if cut { Edit::Cut { left: 0, top: 0, width, height } } else { TURN }
    }

    fn is_usable(&self) -> bool {
        self.loaded && self.count <= 39 && self.primary < self.count && self.standing <= 64
    }

    fn orient(self, number: u32) -> (u32, Sheet) {
        if !self.is_usable() {
            return (7, self);
        }
        if self.standing == 64 {
            return (8, self);
        }
        let Some(&orientation) = ORIENTATIONS.get((number as usize).wrapping_sub(1)) else {
            return (15, self);
        };
        (0, self.with(Edit::Orient(orientation)))
    }

    fn cut(self, left: u32, top: u32, width: u32, height: u32) -> (u32, Sheet) {
        if !self.is_usable() {
            return (7, self);
        }
        if self.standing == 64 {
            return (8, self);
        }
        let primary = edits::carried(self.frame, self.points[self.primary], self.standing());
        let inside = |start: u32, side: u32, limit: u32| side != 0 && u64::from(start) + u64::from(side) <= u64::from(limit);
        if !(inside(left, width, primary.frame[0]) && inside(top, height, primary.frame[1])) {
            return (9, self);
        }
        let edit = Edit::Cut { left, top, width, height };
        if !edit.moved(primary).listed {
            return (10, self);
        }
        (0, self.with(edit))
    }

    fn edited(self, edit: Edit) -> (u32, Sheet) {
        match edit {
            Edit::Orient(orientation) => self.orient(orientation as u32 + 1),
            Edit::Cut { left, top, width, height } => self.cut(left, top, width, height),
        }
    }

    fn with(mut self, edit: Edit) -> Sheet {
        self.edits[self.standing] = edit;
        self.standing += 1;
        self
    }

    fn standing(&self) -> impl Iterator<Item = Edit> + Clone {
        self.edits[..self.standing].iter().copied()
    }

    fn back(mut self) -> (u32, Sheet) {
        if !self.is_usable() {
            return (7, self);
        }
        if self.standing == 0 {
            return (11, self);
        }
        self.standing -= 1;
        (0, self)
    }

    /// Lists the points into the buffer.
    fn list(self, out: &mut [u32]) -> Listed {
        if !self.is_usable() {
            return Err(7);
        }
        let head = edits::list(self.frame, &self.points[..self.count], self.primary, self.standing(), out)?;
        Ok((head, [self.mode, self.origin]))
    }

    /// Lists them in a box.
    fn fit(self, to: [u32; 2], out: &mut [u32]) -> Listed {
        if !self.is_usable() {
            return Err(7);
        }
        let head = edits::fit(self.frame, &self.points[..self.count], self.primary, self.standing(), to, out)?;
        Ok((head, [self.mode, self.origin]))
    }
}

#[derive(Clone, Copy)]
struct Checkpoint {
    name: [u8; 16],
    len: usize,
    edits: [Edit; 64],
    standing: usize,
}

/// A sheet, and the edits that are kept under at most eight names.
#[derive(Clone, Copy)]
struct Workspace {
    sheet: Sheet,
    checkpoints: [Checkpoint; 8],
    count: usize,
}

impl Workspace {
    fn new(sheet: Sheet) -> Workspace {
        Workspace { sheet, checkpoints: [Checkpoint { name: [0; 16], len: 0, edits: [TURN; 64], standing: 0 }; 8], count: 0 }
    }

    fn place_of(&self, name: &[u8]) -> Option<usize> {
        self.checkpoints[..self.count].iter().position(|kept| &kept.name[..kept.len] == name)
    }

    fn orient(mut self, number: u32) -> (u32, Workspace) {
        let (answer, sheet) = self.sheet.orient(number);
        self.sheet = sheet;
        (answer, self)
    }

    fn back(mut self) -> (u32, Workspace) {
        let (answer, sheet) = self.sheet.back();
        self.sheet = sheet;
        (answer, self)
    }

    fn list(self, out: &mut [u32]) -> Listed {
        self.sheet.list(out)
    }

    fn keep(mut self, name: &[u8]) -> (u32, Workspace) {
        if !self.sheet.is_usable() {
            return (7, self);
        }
        if !(1..=16).contains(&name.len()) {
            return (16, self);
        }
        let place = self.place_of(name).unwrap_or(self.count);
        if place == 8 {
            return (17, self);
        }
        let kept = &mut self.checkpoints[place];
        kept.name[..name.len()].copy_from_slice(name);
        kept.len = name.len();
        kept.edits = self.sheet.edits;
        kept.standing = self.sheet.standing;
        self.count = self.count.max(place + 1);
        (0, self)
    }

    fn return_to(mut self, name: &[u8]) -> (u32, Workspace) {
        if !self.sheet.is_usable() {
            return (7, self);
        }
        if !(1..=16).contains(&name.len()) {
            return (16, self);
        }
        let Some(place) = self.place_of(name) else {
            return (18, self);
        };
        self.sheet.edits = self.checkpoints[place].edits;
        self.sheet.standing = self.checkpoints[place].standing;
        (0, self)
    }
}

fn name_at(place: u8) -> [u8; 16] {
    let mut name = [b'n'; 16];
    name[15] = place;
    name
}

/// How a call is made.
pub trait Calling {
    fn call<State, Left>(state: State, call: impl FnOnce(State) -> Left) -> Left;
}

/// As a function of its own, which the state is handed to.
pub struct Apart;

impl Calling for Apart {
    #[inline(never)]
    fn call<State, Left>(state: State, call: impl FnOnce(State) -> Left) -> Left {
        call(state)
    }
}

/// As the compiler likes: drawn into the loop, where it may save copies of the state, or not.
pub struct Free;

impl Calling for Free {
    #[inline(always)]
    fn call<State, Left>(state: State, call: impl FnOnce(State) -> Left) -> Left {
        call(state)
    }
}

/// What a call is answered, so many times over, at last; and the state that it leaves.
fn over<State>(mut state: State, count: u32, mut once: impl FnMut(State) -> (u32, State)) -> (Option<u32>, State) {
    let mut last = None;
    for _ in 0..count {
        let (answer, left) = once(state);
        last = Some(answer);
        state = left;
    }
    (last, state)
}

fn list_number(answer: Listed) -> u32 {
    black_box(answer).err().unwrap_or(0)
}

/// A turn and a back, a keep and a return: the second on what the first leaves.
fn both<C: Calling, State>(state: State, first: impl Fn(State) -> (u32, State), second: impl Fn(State) -> (u32, State)) -> (u32, State) {
    C::call(C::call(state, first).1, second)
}

/// What state_bench prints for a job behind one edit, by the plain states. `out` is where lists go.
pub fn plain<C: Calling>(sheet: Sheet, kind: u8, edit: Edit, to: [u32; 2], count: u32, out: &mut [u32]) -> String {
    let sheet = sheet.edited(edit).1;
    let workspace = (0..8).fold(Workspace::new(sheet), |workspace, place| workspace.keep(&name_at(place)).1);
    let name = name_at(7);
    let on_sheet = |(last, sheet): (_, Sheet)| (last, sheet.standing);
    let on_workspace = |(last, workspace): (_, Workspace)| (last, workspace.sheet.standing);
    let keep = |workspace: Workspace| workspace.keep(black_box(&name));
    let (last, standing) = match kind {
        1 => on_sheet(over(sheet, count, |sheet| both::<C, _>(sheet, |sheet| sheet.edited(black_box(edit)), Sheet::back))),
        2 => on_workspace(over(workspace, count, |workspace| {
            both::<C, _>(workspace, |workspace| workspace.orient(black_box(6)), Workspace::back)
        })),
        3 => on_workspace(over(workspace, count, |workspace| {
            both::<C, _>(workspace, keep, |workspace| workspace.return_to(black_box(&name)))
        })),
        4 => on_workspace(over(workspace, count, |workspace| C::call(workspace, keep))),
        5 => on_sheet(over(sheet, count, |sheet| (list_number(C::call(sheet, |sheet| sheet.list(black_box(out)))), sheet))),
        6 => on_workspace(over(workspace, count, |workspace| {
            (list_number(C::call(workspace, |workspace| workspace.list(black_box(out)))), workspace)
        })),
        7 => on_sheet(over(sheet, count, |sheet| C::call(sheet, |sheet| sheet.orient(black_box(0))))),
        8 => on_workspace(over(workspace, count, |workspace| C::call(workspace, |workspace| workspace.orient(black_box(0))))),
        9 => on_sheet(over(sheet, count, |sheet| (list_number(C::call(sheet, |sheet| sheet.fit(black_box(to), black_box(out)))), sheet))),
        _ => panic!("no kind {kind}"),
    };
    let answer = match last {
        None => "none".to_string(),
        Some(0) => "ok".to_string(),
        Some(number) => format!("no {number}"),
    };
    let sum = || out.iter().fold(0, |sum: u32, &number| sum.wrapping_add(number));
    let ending = if LISTS.contains(&kind) { format!(", sum {}", sum()) } else { String::new() };
    format!("kind {kind}, times {count}: {answer}, standing {standing}{ending}\n")
}

/// The text of a list behind an edit, and of a fit.
pub fn text_behind(sheet: Sheet, edit: Edit, to: [u32; 2]) -> String {
    let sheet = sheet.edited(edit).1;
    let mut out = [0; 6 * 39];
    let list = text(sheet.list(&mut out), &out);
    list + &text(sheet.fit(to, &mut out), &out)
}

/// An answer's text, its points from the buffer.
fn text(answer: Listed, out: &[u32]) -> String {
    match answer {
        Err(number) => format!("no {number}\n"),
        Ok((Head { frame: [width, height], count, index }, [mode, origin])) => {
            let head = format!("frame {width} {height} points {count} primary {index} mode {mode} origin {origin}\n");
            let line = |point: &[u32]| point.iter().map(u32::to_string).collect::<Vec<_>>().join(" ") + "\n";
            head + &out.chunks(6).take(count).map(line).collect::<String>()
        }
    }
}

/// The sizes of the two states, in bytes.
pub fn sizes() -> [usize; 2] {
    [size_of::<Sheet>(), size_of::<Workspace>()]
}

/// A job for state_bench behind its load: its kind, how many times, how many of an edit stand before, and a box behind the longest edit.
pub fn job(load: &[u8], kind: u8, count: u32, standing: u8, edit: Edit, to: [u32; 2]) -> Vec<u8> {
    let mut input = load.to_vec();
    input.push(kind);
    input.extend(count.to_be_bytes());
    input.push(standing);
    input.extend(edit.call());
    input.resize(load.len() + 23, 0);
    input.extend(to.map(u32::to_be_bytes).as_flattened());
    input.resize(2 * load.len(), 0);
    input
}
