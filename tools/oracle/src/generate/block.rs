//! A block laid out from entries: where the directory and the values lie is
//! left to chance, but every value is whole and every tag rises.

use super::random::Random;

#[derive(Clone, Copy, PartialEq, Eq)]
pub enum Order {
    Little,
    Big,
}

impl Order {
    pub fn any(random: &mut Random) -> Self {
        random.pick(&[Order::Little, Order::Big])
    }

    fn short(self, number: u16) -> [u8; 2] {
        match self {
            Order::Little => number.to_le_bytes(),
            Order::Big => number.to_be_bytes(),
        }
    }

    fn long(self, number: u32) -> [u8; 4] {
        match self {
            Order::Little => number.to_le_bytes(),
            Order::Big => number.to_be_bytes(),
        }
    }

    pub fn shorts(self, numbers: &[u16]) -> Vec<u8> {
        numbers.iter().flat_map(|&number| self.short(number)).collect()
    }

    pub fn longs(self, numbers: &[u32]) -> Vec<u8> {
        numbers.iter().flat_map(|&number| self.long(number)).collect()
    }
}

/// Bytes of one value of type 1 to 13.
pub fn size_of(kind: u16) -> usize {
    [1, 1, 2, 4, 8, 1, 1, 2, 4, 8, 4, 8, 4][usize::from(kind) - 1]
}

/// A tag with a type and a value of whole numbers of that type.
#[derive(Clone)]
pub struct Entry {
    tag: u16,
    kind: u16,
    value: Vec<u8>,
}

impl Entry {
    pub fn new(tag: u16, kind: u16, value: Vec<u8>) -> Self {
        assert!(!value.is_empty() && value.len().is_multiple_of(size_of(kind)));
        Self { tag, kind, value }
    }

    fn count(&self) -> u32 {
        (self.value.len() / size_of(self.kind)) as u32
    }

    fn is_far(&self) -> bool {
        self.value.len() > 4
    }
}

/// Adds entries of other tags than `taken`: before, between and after them.
pub fn add_others(random: &mut Random, entries: &mut Vec<Entry>, taken: &[u16]) {
    let most = if random.chance(50) { 0 } else { random.index(4) + 1 };
    for _ in 0..most {
        let tag = match random.below(5) {
            0 => random.short(0, 6),
            1 => random.short(8, 0x1A),
            2 => random.short(0x1C, 0x44),
            3 => random.short(0x46, 0xB6),
            _ => random.pick(&[0xB8, 0xB9, 0x0700, 0x1B00, 0x4500, 0xB700, 0xFFFF]),
        };
        add_other(random, entries, taken, tag);
    }
}

fn add_other(random: &mut Random, entries: &mut Vec<Entry>, taken: &[u16], tag: u16) {
    if taken.contains(&tag) || entries.iter().any(|entry| entry.tag == tag) {
        return;
    }
    let kind = random.short(1, 13);
    let mut value = vec![0; size_of(kind) * (random.index(3) + 1)];
    random.fill(&mut value);
    entries.push(Entry::new(tag, kind, value));
}

/// The block of these entries. Of a hundred far values, `astray` lie anywhere,
/// over whatever stands there.
pub fn lay_out(random: &mut Random, order: Order, mut entries: Vec<Entry>, astray: u64) -> Vec<u8> {
    let overlaps = random.chance(2) && overlap_header(random, order, &mut entries);
    if entries.is_empty() {
        // A directory of no entries is not one that the library reads.
        add_other(random, &mut entries, &[], 1);
    }
    entries.sort_by_key(|entry| entry.tag);

    let mut block = match order {
        Order::Little => b"II*\0\0\0\0\0".to_vec(),
        Order::Big => b"MM\0*\0\0\0\0".to_vec(),
    };
    let table = 2 + 12 * entries.len();
    let link = if random.chance(60) { 4 } else { 0 };

    // The pieces in the order in which they lie: None is the directory.
    let far = (0..entries.len()).filter(|&i| entries[i].is_far()).map(Some);
    let mut pieces: Vec<Option<usize>> = far.collect();
    shuffle(random, &mut pieces);
    let first = if overlaps || random.chance(70) { 0 } else { random.index(pieces.len() + 1) };
    pieces.insert(first, None);

    let mut directory = 0;
    let mut places = vec![0; entries.len()];
    for piece in pieces {
        if overlaps && piece.is_none() {
            block.truncate(if order == Order::Little { 4 } else { 6 });
        } else if random.chance(30) {
            let gap = random.index(5) + 1;
            pad(random, &mut block, gap);
        }
        match piece {
            None => {
                directory = block.len();
                pad(random, &mut block, table + link);
            }
            Some(i) => {
                places[i] = block.len();
                block.extend(&entries[i].value);
            }
        }
    }
    if random.chance(20) {
        let tail = random.index(4) + 1;
        pad(random, &mut block, tail);
    }

    for (place, entry) in places.iter_mut().zip(&entries) {
        if random.chance(astray) && entry.value.len() <= block.len() {
            *place = random.index(block.len() - entry.value.len() + 1);
        }
    }
    write_directory(random, order, &mut block, directory, &entries, &places);
    block
}

fn write_directory(
    random: &mut Random,
    order: Order,
    block: &mut [u8],
    directory: usize,
    entries: &[Entry],
    places: &[usize],
) {
    let mut table = order.short(entries.len() as u16).to_vec();
    for (entry, &place) in entries.iter().zip(places) {
        table.extend(order.short(entry.tag));
        table.extend(order.short(entry.kind));
        table.extend(order.long(entry.count()));
        let mut field = order.long(place as u32);
        if !entry.is_far() {
            random.fill(&mut field);
            field[..entry.value.len()].copy_from_slice(&entry.value);
        }
        table.extend(field);
    }
    block[directory..directory + table.len()].copy_from_slice(&table);
    // Last, so that a directory over the header leaves the offset whole.
    block[4..8].copy_from_slice(&order.long(directory as u32));
}

/// Fills the entries up so that the directory can start inside the header:
/// at 6 with six entries, big-endian, or at 4 with four entries of which the
/// first has tag 0, little-endian.
fn overlap_header(random: &mut Random, order: Order, entries: &mut Vec<Entry>) -> bool {
    let (first, count) = match order {
        Order::Little => (0, 4),
        Order::Big => (0xC0, 6),
    };
    let others = (0xC1..).take(count);
    for tag in std::iter::once(first).chain(others) {
        if entries.len() < count || tag == 0 {
            add_other(random, entries, &[], tag);
        }
    }
    entries.len() == count
}

/// Makes the block one whose header or directory cannot be read.
pub fn spoil(random: &mut Random, order: Order, block: &mut Vec<u8>) {
    let offset: [u8; 4] = block[4..8].try_into().unwrap();
    let directory = match order {
        Order::Little => u32::from_le_bytes(offset),
        Order::Big => u32::from_be_bytes(offset),
    } as usize;
    match random.below(4) {
        0 => block[random.index(4)] ^= 1 << random.below(8),
        1 => block.truncate(random.index(8)),
        2 => {
            // Cut inside the directory, often by one byte.
            let count: [u8; 2] = block[directory..directory + 2].try_into().unwrap();
            let count = match order {
                Order::Little => u16::from_le_bytes(count),
                Order::Big => u16::from_be_bytes(count),
            };
            let end = directory + 2 + 12 * usize::from(count);
            let short = if random.chance(50) { 1 } else { random.index(end - directory) + 1 };
            block.truncate(end - short);
        }
        _ => {
            let end = block.len() as u32;
            let past = random.pick(&[end - 1, end, end + 1, u32::MAX - 1, u32::MAX]);
            block[4..8].copy_from_slice(&order.long(past));
        }
    }
}

fn pad(random: &mut Random, block: &mut Vec<u8>, length: usize) {
    let start = block.len();
    block.resize(start + length, 0);
    random.fill(&mut block[start..]);
}

fn shuffle<T>(random: &mut Random, items: &mut [T]) {
    for i in (1..items.len()).rev() {
        items.swap(i, random.index(i + 1));
    }
}
