//! A block's contents by a plain loop over its directory, as one would write it in Rust: what this library's is timed beside.

const TAGS: [u16; 4] = [0x07, 0x1B, 0x45, 0xB7];

/// How many of the four tags have a kept entry, and these in the order of their first kept entries; `None` for a block that cannot be read.
pub fn plain(block: &[u8]) -> Option<[u32; 5]> {
    if !(8..=1_048_576).contains(&block.len()) {
        return None;
    }
    let big = match &block[..4] {
        b"MM\0*" => true,
        b"II*\0" => false,
        _ => return None,
    };
    let short = |two: &[u8]| {
        let two = [two[0], two[1]];
        if big { u16::from_be_bytes(two) } else { u16::from_le_bytes(two) }
    };
    let offset: [u8; 4] = block[4..8].try_into().unwrap();
    let start = if big { u32::from_be_bytes(offset) } else { u32::from_le_bytes(offset) } as usize;
    let count = short(block.get(start..start + 2)?) as usize;
    let mut found = [0; 5];
    for entry in block.get(start + 2..start + 2 + 12 * count)?.chunks_exact(12) {
        let tag = short(entry);
        if TAGS.contains(&tag) && (1..=13).contains(&short(&entry[2..])) {
            let met = found[0] as usize;
            if !found[1..=met].contains(&(tag as u32)) {
                found[met + 1] = tag as u32;
                found[0] += 1;
            }
        }
    }
    Some(found)
}

/// A block of as many entries as a directory can have, all of the tag 0001.
pub fn longest() -> Vec<u8> {
    let mut block = b"MM\0*\0\0\0\x08\xff\xff".to_vec();
    block.extend(b"\0\x01\0\x03\0\0\0\x01\0\0\0\0".repeat(65_535));
    block
}

/// The block with its directory's entries the other way round; the directory starts at byte 8.
pub fn reversed(block: &[u8]) -> Vec<u8> {
    let two = [block[8], block[9]];
    let count = if block[0] == b'M' { u16::from_be_bytes(two) } else { u16::from_le_bytes(two) };
    let end = 10 + 12 * count as usize;
    let entries: Vec<u8> = block[10..end].chunks(12).rev().flatten().copied().collect();
    [&block[..10], &entries, &block[end..]].concat()
}
