//! The inputs, in families: all inputs of a kind where that is possible, else random ones from a seed.

mod agreed;
mod boards;
mod codes;
mod digits;
mod ends;
mod pairs;
mod records;
mod sequence;
mod sessions;
mod tariffs;
mod writers;

use reference::random::Random;

use crate::calls::Calls;

/// A family of inputs. The number is how many times as many random inputs are compared.
pub struct Family {
    pub name: &'static str,
    pub compare: fn(&mut Calls, &mut Random, u64),
}

/// The slowest first, so that two workers end at about the same time.
pub const ALL: [Family; 27] = [
    Family {
        name: "line ends, every two bytes",
        compare: ends::each_two_bytes,
    },
    Family {
        name: "typed lines, every change and swap",
        compare: digits::changed_lines,
    },
    Family {
        name: "barcodes, every change",
        compare: digits::changed_barcodes,
    },
    Family {
        name: "typed lines, every pair of digits in a box",
        compare: digits::pairs_in_boxes,
    },
    Family {
        name: "dates of 1899 to 2200",
        compare: digits::dates,
    },
    Family {
        name: "lines and barcodes, damaged and noise",
        compare: digits::damaged,
    },
    Family {
        name: "barcodes built, check digits",
        compare: digits::build,
    },
    Family {
        name: "records, every byte at every place",
        compare: records::changed,
    },
    Family {
        name: "records, damaged and noise",
        compare: records::damaged,
    },
    Family {
        name: "agreed issuers, every kind of list, and keys",
        compare: agreed::lists,
    },
    Family {
        name: "due dates of agreed issuers",
        compare: agreed::due_dates,
    },
    Family {
        name: "versions, every code and every version",
        compare: codes::codes,
    },
    Family {
        name: "days, record by record",
        compare: sessions::by_record,
    },
    Family {
        name: "days, many records at once",
        compare: sessions::by_run,
    },
    Family {
        name: "line ends, damaged, and every length",
        compare: ends::each_length,
    },
    Family {
        name: "sequence numbers, every byte of a header",
        compare: sequence::changed_headers,
    },
    Family {
        name: "sequence numbers, every place and edge",
        compare: sequence::each_place,
    },
    Family {
        name: "sequence numbers, memories in arbitrary states",
        compare: sequence::arbitrary,
    },
    Family {
        name: "days of many pairs, record by record",
        compare: pairs::by_record,
    },
    Family {
        name: "days of many pairs, many records at once",
        compare: pairs::by_run,
    },
    Family {
        name: "tariffs, every sum at its edges",
        compare: tariffs::each_sum,
    },
    Family {
        name: "tariffs, files that reach the limit",
        compare: tariffs::files,
    },
    Family {
        name: "sessions, noise",
        compare: sessions::noise,
    },
    Family {
        name: "sessions in arbitrary states",
        compare: sessions::arbitrary,
    },
    Family {
        name: "pages",
        compare: sessions::pages,
    },
    Family {
        name: "files written",
        compare: writers::files,
    },
    Family {
        name: "files written, buffers of every length",
        compare: writers::buffer_sizes,
    },
];

/// Calls `compare` with each of the 256 bytes at each place.
fn each_change(bytes: &mut [u8], mut compare: impl FnMut(&[u8])) {
    for i in 0..bytes.len() {
        let was = bytes[i];
        for byte in 0..=255 {
            bytes[i] = byte;
            compare(bytes);
        }
        bytes[i] = was;
    }
}

/// Random bytes of a length: any bytes, or only digits.
fn noise(random: &mut Random, length: usize) -> Vec<u8> {
    let digits = random.once_in(2);
    let one = |_| {
        if digits {
            random.digit()
        } else {
            random.byte()
        }
    };
    (0..length).map(one).collect()
}

/// One of these numbers, one near it, or any number.
fn near(random: &mut Random, edges: &[u64]) -> u64 {
    let edge = edges[random.index(edges.len())];
    match random.below(8) {
        0 => random.bits(),
        1 => random.number(19),
        2 => edge.saturating_add(1),
        3 => edge.saturating_sub(1),
        4 => edge.saturating_sub(random.number(12)),
        _ => edge,
    }
}

/// The length of an output buffer: mostly the required one.
fn out_length(random: &mut Random, required: u8) -> u8 {
    match random.below(16) {
        0 => random.byte(),
        1 => required - 1,
        2 => required + 1,
        _ => required,
    }
}
