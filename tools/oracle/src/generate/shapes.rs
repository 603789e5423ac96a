//! Pairs of sizes for `same_shape`: around the edges of the rule, and others
//! by chance.

use super::Random;
use crate::Pair;

/// The ends of a side's range.
pub const ENDS: [u32; 5] = [0, 1, 2, u32::MAX - 1, u32::MAX];

/// Small sides, usual ones, and those around 16 bits.
const OTHERS: [u32; 15] =
    [3, 5, 7, 13, 31, 427, 640, 3008, 4016, 4512, 5504, 6016, 8256, 65_535, 65_536];

/// How many pairs are stored.
const STORED: usize = 4_000;

/// The pairs at the edges.
pub fn edges() -> Vec<Pair> {
    edges_of(&[&ENDS[..], &OTHERS].concat())
}

/// The pairs that are stored: the edges with sides at the ends of their range,
/// then others by chance.
pub fn stored(random: &mut Random) -> Vec<Pair> {
    let mut pairs = edges_of(&ENDS);
    pairs.resize_with(STORED, || pair(random));
    pairs
}

/// A pair by chance, the two sizes and their sides exchanged or not.
pub fn pair(random: &mut Random) -> Pair {
    let pair = match random.below(7) {
        0 => multiple(random),
        1 => scaled(random),
        2 => Pair::new([0; 4].map(|_| near_power(random))),
        3 => Pair::new([0; 4].map(|_| random.bits() as u32)),
        4 => Pair::new([0; 4].map(|_| random.number(1, 40))),
        5 => turning(random),
        _ => solved(random),
    };
    random.pick(&exchanged(pair))
}

/// The pair, with the sides of both sizes exchanged, with the two sizes
/// exchanged, and with both: neither difference nor longest side changes.
fn exchanged(pair: Pair) -> [Pair; 4] {
    let [fw, fh, pw, ph] = pair.sides();
    [[fw, fh, pw, ph], [fh, fw, ph, pw], [pw, ph, fw, fh], [ph, pw, fh, fw]].map(Pair::new)
}

// -------------------------------------------------------------------- edges

/// Every pair of these sides; and those of which three are such sides, and the
/// answer changes between the fourth and its neighbours.
fn edges_of(sides: &[u32]) -> Vec<Pair> {
    let mut pairs = Vec::new();
    for &fw in sides {
        for &fh in sides {
            for &pw in sides {
                let heights = sides.iter().copied().chain(turning_heights([fw, fh, pw]));
                pairs.extend(heights.flat_map(|ph| exchanged(Pair::new([fw, fh, pw, ph]))));
            }
        }
    }
    pairs.sort();
    pairs.dedup();
    pairs
}

/// The heights of a picture between which the answer changes, for the other
/// three sides, and those where the difference is one below, at and one above
/// the longest side; some of these where the frame is 0 or 1 wide, and a whole
/// row of heights is so.
fn turning_heights(sides: [u32; 3]) -> impl Iterator<Item = u32> {
    let [fw, fh, pw] = sides.map(i128::from);
    let product = fh * pw;
    let longest = fw.max(fh).max(pw);
    // fw × ph = product ± longest; or ph is the longest side, and fw × ph = product ± ph.
    [(product - longest, fw), (product + longest, fw), (product, fw - 1), (product, fw + 1)]
        .into_iter()
        .filter(|&(_, by)| by > 0)
        .flat_map(|(of, by)| (-1..=1).map(move |off| of.div_euclid(by) + off))
        .filter_map(|height| u32::try_from(height).ok())
}

// ---------------------------------------------------------------- by chance

/// A side of any kind, not 0.
fn side(random: &mut Random) -> u32 {
    match random.below(5) {
        0 => random.pick(&OTHERS),
        1 => random.number(1, 40),
        2 => random.number(1, 9_000),
        3 => near_power(random).max(1),
        _ => random.number(1, u32::MAX),
    }
}

/// A side at most two from a power of two.
fn near_power(random: &mut Random) -> u32 {
    near(1 << random.below(33), random, 2)
}

/// A side at most `off` from this number.
fn near(number: i128, random: &mut Random, off: u64) -> u32 {
    in_range(number + i128::from(random.below(2 * off + 1)) - i128::from(off))
}

/// The side that is nearest to a number.
fn in_range(number: i128) -> u32 {
    number.clamp(0, u32::MAX.into()) as u32
}

/// A frame, and a picture that is a whole number of times as large, or some
/// pixels off.
fn multiple(random: &mut Random) -> Pair {
    let frame = [side(random), side(random)];
    let most = u32::MAX / frame[0].max(frame[1]);
    let times =
        if random.chance(50) { random.number(1, most.min(9)) } else { random.number(1, most) };
    let off = random.below(4);
    let [pw, ph] = frame.map(|side| near(i128::from(side) * i128::from(times), random, off));
    Pair::new([frame[0], frame[1], pw, ph])
}

/// A frame, and a picture that is the frame scaled, its height rounded, or some
/// pixels off.
fn scaled(random: &mut Random) -> Pair {
    let sides = [0; 3].map(|_| side(random));
    let [fw, fh, pw] = sides.map(i128::from);
    let off = random.below(3);
    let ph = near((2 * fh * pw + fw) / (2 * fw), random, off);
    Pair::new([sides[0], sides[1], sides[2], ph])
}

/// Three sides, and a fourth around which the answer changes.
fn turning(random: &mut Random) -> Pair {
    let sides = [0; 3].map(|_| side(random));
    let heights: Vec<u32> = turning_heights(sides).collect();
    let ph = if heights.is_empty() { side(random) } else { random.pick(&heights) };
    Pair::new([sides[0], sides[1], sides[2], ph])
}

/// A frame, and mostly a picture for which the difference is the frame's longer
/// side, or, where the frame's sides have no common divisor, one more or less.
fn solved(random: &mut Random) -> Pair {
    let frame = [side(random), side(random)];
    let [fw, fh] = frame.map(i128::from);
    let (common, times) = euclid(fh, fw);
    let off = if common == 1 { i128::from(random.below(3)) - 1 } else { 0 };
    let difference = random.pick(&[1, -1]) * (fw.max(fh) + off);
    // fw × ph − fh × pw = difference leaves pw free by multiples of fw ÷ common.
    let step = fw / common;
    let pw = (-difference / common * times).rem_euclid(step)
        + step * i128::from(random.below(common as u64));
    let ph = (difference + fh * pw) / fw;
    Pair::new([frame[0], frame[1], in_range(pw), in_range(ph)])
}

/// The greatest common divisor of the two, and how many times `a` is equal to
/// it, but for a multiple of `b`.
fn euclid(a: i128, b: i128) -> (i128, i128) {
    let (mut last, mut next) = ((b, 0), (a % b, 1));
    while next.0 != 0 {
        let whole = last.0 / next.0;
        (last, next) = (next, (last.0 - whole * next.0, last.1 - whole * next.1));
    }
    last
}
