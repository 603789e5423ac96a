//! The listing of points behind edits, and in a box, by a plain loop, as one would write it in Rust: what lists and fits are timed beside.

/// The eight orientations, by their numbers 1 to 8 in this order.
#[derive(Clone, Copy)]
pub enum Orientation {
    Normal,
    FlipHorizontal,
    Rotate180,
    FlipVertical,
    Transpose,
    Rotate90,
    Transverse,
    Rotate270,
}

use Orientation::*;

/// The orientation of number i + 1 at place i.
pub const ORIENTATIONS: [Orientation; 8] = [Normal, FlipHorizontal, Rotate180, FlipVertical, Transpose, Rotate90, Transverse, Rotate270];

/// An orientation, or a cut.
#[derive(Clone, Copy)]
pub enum Edit {
    Orient(Orientation),
    Cut { left: u32, top: u32, width: u32, height: u32 },
}

/// A turn: orientation 6.
pub const TURN: Edit = Edit::Orient(Rotate90);

/// Where a point is: whether no cut dropped it, its frame, its center and its area, each across and then down.
#[derive(Clone, Copy)]
pub struct Carried {
    pub listed: bool,
    pub frame: [u32; 2],
    center: [u32; 2],
    area: [u32; 2],
}

/// What a listing says beside its points: their frame and number, and the primary's index among them.
#[derive(Clone, Copy, Debug, PartialEq)]
pub struct Head {
    pub frame: [u32; 2],
    pub count: usize,
    pub index: usize,
}

impl Edit {
    /// The call that makes it, in bytes.
    pub fn call(self) -> Vec<u8> {
        match self {
            Edit::Orient(orientation) => vec![9, orientation as u8 + 1],
            Edit::Cut { left, top, width, height } => {
                let numbers = [left, top, width, height].map(u32::to_be_bytes);
                [&[2], numbers.as_flattened()].concat()
            }
        }
    }

    /// A point behind this edit too.
    pub fn moved(self, from: Carried) -> Carried {
        match self {
            Edit::Orient(orientation) => oriented(from, orientation),
            Edit::Cut { left, top, width, height } => {
                let [x, y] = from.center;
                let (frame, center) = ([width, height], [x.wrapping_sub(left), y.wrapping_sub(top)]);
                let stays = left <= x && top <= y && fits(frame, center, from.area);
                Carried { listed: from.listed && stays, frame, center, ..from }
            }
        }
    }
}

/// A point under an orientation.
fn oriented(from: Carried, orientation: Orientation) -> Carried {
    let Carried { frame: [w, h], center: [x, y], area: [a, b], .. } = from;
    let upright = |center| Carried { center, ..from };
    let across = |center| Carried { frame: [h, w], center, area: [b, a], ..from };
    match orientation {
        Normal => from,
        FlipHorizontal => upright([w - x, y]),
        Rotate180 => upright([w - x, h - y]),
        FlipVertical => upright([x, h - y]),
        Transpose => across([y, x]),
        Rotate90 => across([h - y, x]),
        Transverse => across([h - y, w - x]),
        Rotate270 => across([y, w - x]),
    }
}

/// Whether a point lies on a frame, with its area where it has one.
fn fits([w, h]: [u32; 2], [x, y]: [u32; 2], [a, b]: [u32; 2]) -> bool {
    let axis = |side: u32, at: u32, limit: u32| side.div_ceil(2) <= at && u64::from(at) + u64::from(side.div_ceil(2)) <= u64::from(limit);
    let area = (a, b) == (0, 0) || a != 0 && b != 0 && axis(a, x, w) && axis(b, y, h);
    w != 0 && h != 0 && x <= w && y <= h && area
}

/// A point of a frame, of its six numbers, behind edits.
pub fn carried(frame: [u32; 2], [_, x, y, width, height, _]: [u32; 6], edits: impl Iterator<Item = Edit>) -> Carried {
    let mut place = Carried { listed: true, frame, center: [x, y], area: [width, height] };
    for edit in edits {
        place = edit.moved(place);
    }
    place
}

/// Lists the points of a frame, six numbers each, behind edits into a buffer; 13 where it is too short.
pub fn list(
    frame: [u32; 2],
    points: &[[u32; 6]],
    primary: usize,
    edits: impl Iterator<Item = Edit> + Clone,
    out: &mut [u32],
) -> Result<Head, u32> {
    list_as(frame, points, primary, edits, |row| row, out)
}

/// Lists them in a box, whose blank side, 0, is worked out from the frame that the edits leave; 12 where a side is then zero, 19 where it
/// has not that frame's shape.
pub fn fit(
    frame: [u32; 2],
    points: &[[u32; 6]],
    primary: usize,
    edits: impl Iterator<Item = Edit> + Clone,
    to: [u32; 2],
    out: &mut [u32],
) -> Result<Head, u32> {
    let from = carried(frame, points[primary], edits.clone()).frame;
    let to = worked(from, to);
    if to.contains(&0) {
        return Err(12);
    }
    if !same_shape(from, to) {
        return Err(19);
    }
    let head = list_as(frame, points, primary, edits, |row| scaled(row, from, to), out)?;
    Ok(Head { frame: to, ..head })
}

/// A box with its blank side worked out.
fn worked([w, h]: [u32; 2], to: [u32; 2]) -> [u32; 2] {
    match to {
        [0, height] => [scale(w, h, height), height],
        [width, 0] => [width, scale(h, w, width)],
        _ => to,
    }
}

/// Whether two frames have one shape, to within a pixel of rounding.
fn same_shape([w, h]: [u32; 2], [a, b]: [u32; 2]) -> bool {
    let [across, down] = [(w, b), (h, a)].map(|(one, other)| u64::from(one) * u64::from(other));
    across.abs_diff(down) <= u64::from(w.max(h).max(a).max(b))
}

/// A point's six numbers in another frame. Its area has sides of at least a pixel and is trimmed to the frame, or it has none.
fn scaled([number, x, y, width, height, in_focus]: [u32; 6], from: [u32; 2], to: [u32; 2]) -> [u32; 6] {
    let center = [scale(x, from[0], to[0]), scale(y, from[1], to[1])];
    let side = |side, axis: usize| {
        let nearer = center[axis].min(to[axis] - center[axis]);
        scale(side, from[axis], to[axis]).max(1).min(2 * nearer)
    };
    let area = if (width, height) == (0, 0) { [0; 2] } else { [side(width, 0), side(height, 1)] };
    let area = if area.contains(&0) { [0; 2] } else { area };
    [number, center[0], center[1], area[0], area[1], in_focus]
}

/// A number on a side of one frame, on that of another: to the nearest pixel, a half up.
fn scale(value: u32, old: u32, new: u32) -> u32 {
    let scaled = (u64::from(value) * u64::from(new) + u64::from(old / 2)) / u64::from(old);
    u32::try_from(scaled).unwrap_or(u32::MAX)
}

/// Lists the points, each as `measured` gives it.
fn list_as(
    frame: [u32; 2],
    points: &[[u32; 6]],
    primary: usize,
    edits: impl Iterator<Item = Edit> + Clone,
    measured: impl Fn([u32; 6]) -> [u32; 6],
    out: &mut [u32],
) -> Result<Head, u32> {
    let mut rows = [[0; 6]; 39];
    let mut head = Head { frame, count: 0, index: 0 };
    for (i, &point) in points.iter().enumerate() {
        let place = carried(frame, point, edits.clone());
        if i == primary {
            head.frame = place.frame;
            head.index = head.count;
        }
        if place.listed {
            rows[head.count] = measured([point[0], place.center[0], place.center[1], place.area[0], place.area[1], point[5]]);
            head.count += 1;
        }
    }
    let numbers = rows[..head.count].as_flattened();
    out.get_mut(..numbers.len()).ok_or(13u32)?.copy_from_slice(numbers);
    Ok(head)
}

/// The head and the points of a listing's text.
pub fn of_text(text: &[u8]) -> (Head, Vec<u32>) {
    let numbers = |line: &str| -> Vec<u32> { line.split(' ').filter_map(|word| word.parse().ok()).collect() };
    let text = std::str::from_utf8(text).unwrap();
    let mut lines = text.lines().skip_while(|line| !line.starts_with("frame")).map(numbers);
    let head = lines.next().unwrap();
    (Head { frame: [head[0], head[1]], count: head[2] as usize, index: head[3] as usize }, lines.flatten().collect())
}
