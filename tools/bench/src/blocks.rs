//! The loads that are timed: the stored ones of the crate placing_test, and the same with a large block.

use oracle::Size;

#[derive(Clone)]
pub struct Load {
    pub raw: Option<Size>,
    pub picture: Option<Size>,
    pub model: Vec<u8>,
    pub block: Vec<u8>,
}

/// The stored loads: 512 bytes each, as placing_test reads them.
pub fn stored(data: &[u8]) -> Vec<Load> {
    let number = |at: &[u8]| u32::from_be_bytes(at[..4].try_into().unwrap());
    let size = |at: &[u8]| Size { width: number(at), height: number(&at[4..]) };
    let load = |record: &[u8]| {
        let model = 20 + record[17] as usize;
        let block = model + u16::from_be_bytes([record[18], record[19]]) as usize;
        Load {
            raw: (record[0] % 2 == 1).then(|| size(&record[1..])),
            picture: (record[0] / 2 == 1).then(|| size(&record[9..])),
            model: record[20..model].to_vec(),
            block: record[model..block].to_vec(),
        }
    };
    data.chunks(512).map(load).collect()
}

const SIZES: [usize; 14] = [0, 1, 1, 2, 4, 8, 1, 1, 2, 4, 8, 4, 8, 4];

/// A load whose block has 60 entries and 60 KB: its own entries among others, its longer values near the end.
pub fn grown(load: &Load) -> Load {
    let old = &load.block;
    let big = old[0] == b'M';
    let short = |at: usize| {
        let two = [old[at], old[at + 1]];
        if big { u16::from_be_bytes(two) } else { u16::from_le_bytes(two) }
    };
    let long = |at: usize| {
        let four = old[at..at + 4].try_into().unwrap();
        if big { u32::from_be_bytes(four) } else { u32::from_le_bytes(four) }
    };
    let put16 = |n: u16| if big { n.to_be_bytes() } else { n.to_le_bytes() };
    let put32 = |n: u32| if big { n.to_be_bytes() } else { n.to_le_bytes() };
    let start = long(4) as usize;
    let own: Vec<usize> = (0..short(start) as usize).map(|i| start + 2 + 12 * i).collect();
    let mut values = Vec::new();
    let mut entries: Vec<(u16, Vec<u8>)> = own
        .iter()
        .map(|&at| {
            let mut entry = old[at..at + 12].to_vec();
            let length = SIZES[short(at + 2) as usize] * long(at + 4) as usize;
            if length > 4 {
                let from = long(at + 8) as usize;
                entry[8..].copy_from_slice(&put32((60_000 + values.len()) as u32));
                values.extend_from_slice(&old[from..from + length]);
            }
            (short(at), entry)
        })
        .collect();
    let mut tag = 0;
    while entries.len() < 60 {
        tag += 3;
        if ![0x07, 0x1B, 0x45, 0xB7].contains(&tag) {
            let entry = [&put16(tag)[..], &put16(3), &put32(1), &[0; 4]].concat();
            entries.push((tag, entry));
        }
    }
    entries.sort_by_key(|entry| entry.0);
    let mut block = [&old[..4], &put32(8), &put16(60)[..]].concat();
    entries.iter().for_each(|entry| block.extend_from_slice(&entry.1));
    block.resize(60_000, 0);
    block.extend(values);
    Load { block, ..load.clone() }
}

/// A call line that loads a photograph with all 39 points of the table.
pub fn with_all_points() -> Vec<u8> {
    let mut record = b"0100\0\0\x03\x01".to_vec();
    record.extend([0xFF, 0xFF, 0xFF, 0xFF, 0x7F, 0, 0]);
    record.resize(30, 0);
    let mut line = [vec![1], vec![0; 17], vec![10], b"NIKON D600MM\0*\0\0\0\x08\0\x01\0\xB7\0\x07\0\0\0\x1E\0\0\0\x16".to_vec()].concat();
    line.extend(record);
    call_line(&line)
}

/// The call line of these bytes: with their check, in hexadecimal.
pub fn call_line(bytes: &[u8]) -> Vec<u8> {
    let check = bytes.iter().fold(0u8, |sum, &byte| sum.wrapping_sub(byte));
    let mut text: Vec<u8> = bytes.iter().chain([&check]).flat_map(|byte| format!("{byte:02X}").into_bytes()).collect();
    text.push(b'\n');
    text
}
