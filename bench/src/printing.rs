//! Prints table and frame list into one buffer, each line by a few stores of fixed length: a store
//! may reach past the end of its word, and the next one overwrites what is too much.

use reference::Lines;

use crate::baseline::Outcome;

/// The words lent by the planning program: 3,000 entries and 2,000 frames.
pub const PROGRAM_WORDS: usize = 3_000 * 5;
pub const PROGRAM_FRAME_WORDS: usize = 2_000 * 3;

/// The bytes that the longest listing takes. The longest entry has six values and takes 104 bytes,
/// the longest frame 38; the delay line and eight passed lines take less than 350, whatever their
/// numbers are.
pub const LONGEST_LISTING: usize = 350 + 3_000 * 104 + 2_000 * 38;

/// The bytes by which a store may reach past the end of the listing.
const PAST_THE_END: usize = 64;

/// The bytes of the buffer.
const ROOM: usize = LONGEST_LISTING + PAST_THE_END;

/// A printer with its buffer, which is used again for each listing.
pub struct Printer {
    bytes: Box<[u8; ROOM]>,
}

impl Default for Printer {
    fn default() -> Self {
        let bytes = vec![0; ROOM].into_boxed_slice();
        Printer {
            bytes: bytes.try_into().expect("as many bytes"),
        }
    }
}

impl Printer {
    /// Prints a refusal, and gives what was printed.
    pub fn refused(&mut self, number: u8) -> &[u8] {
        self.print(|pen| {
            pen.put(b"(refused ", 9);
            pen.put_number(u32::from(number));
            pen.put(b")\n", 2);
        })
    }

    /// Prints what the planner gave for a plan, and gives what was printed. The words are those of
    /// at most 3,000 entries and 2,000 frames, as the planner writes them.
    pub fn listing(
        &mut self,
        lines: &Lines,
        outcome: &Outcome,
        words: &[u32],
        frame_words: &[u32],
    ) -> &[u8] {
        self.print(|pen| {
            pen.put(b"(delay ", 7);
            pen.put_great(outcome.delay);
            pen.put(b")\n", 2);
            pen.put_passed(&outcome.passed_by_node[..lines.slots.len()]);
            pen.put_entries(lines, &words[..outcome.words]);
            pen.put_frames(&frame_words[..outcome.frame_words]);
        })
    }

    /// Prints from the front of the buffer, and gives what was printed.
    #[inline(always)]
    fn print(&mut self, put: impl FnOnce(&mut Pen)) -> &[u8] {
        let mut pen = Pen {
            bytes: &mut self.bytes,
            filled: 0,
        };
        put(&mut pen);
        let filled = pen.filled;
        &self.bytes[..filled]
    }
}

/// The buffer and how far it is filled.
struct Pen<'a> {
    bytes: &'a mut [u8; ROOM],
    filled: usize,
}

impl Pen<'_> {
    /// Puts these bytes, of which so many count.
    #[inline(always)]
    fn put<const LENGTH: usize>(&mut self, bytes: &[u8; LENGTH], count: usize) {
        self.bytes[self.filled..self.filled + LENGTH].copy_from_slice(bytes);
        self.filled += count;
    }

    /// Puts the passed lines of the nodes that these are the counts of.
    fn put_passed(&mut self, counts: &[u64]) {
        for (node, &count) in counts.iter().enumerate() {
            self.put(b"(passed (node ", 14);
            self.put_number(node as u32);
            self.put(b") ", 2);
            self.put_great(count);
            self.put(b")\n", 2);
        }
    }

    /// Puts a number of any size.
    fn put_great(&mut self, number: u64) {
        if number >= 10_000_000_000 {
            self.put_great(number / 10_000_000_000);
            self.put_ten(number % 10_000_000_000);
        } else if number >= 100_000_000 {
            self.put_number((number / 100_000_000) as u32);
            self.put_eight((number % 100_000_000) as u32);
        } else {
            self.put_number(number as u32);
        }
    }

    /// Puts a number below ten thousand million with all its ten digits.
    fn put_ten(&mut self, number: u64) {
        let great = (number / 100_000_000) as u8;
        self.put(&[b'0' + great / 10, b'0' + great % 10], 2);
        self.put_eight((number % 100_000_000) as u32);
    }

    /// Puts a number.
    #[inline(always)]
    fn put_number(&mut self, number: u32) {
        if number < 10 {
            self.put(&[b'0' + number as u8], 1);
        } else if number < 100_000_000 {
            self.put_first_digits(number);
        } else {
            self.put_first_digits(number / 100_000_000);
            self.put_eight(number % 100_000_000);
        }
    }

    /// Puts a number from 1 to below a hundred million, without leading zeros.
    #[inline(always)]
    fn put_first_digits(&mut self, number: u32) {
        let digits = eight_digits(number);
        let zeros = digits.trailing_zeros() / 8;
        let bytes = (digits | ZEROS) >> (zeros * 8);
        self.put(&bytes.to_le_bytes(), 8 - zeros as usize);
    }

    /// Puts a number below a hundred million with all its eight digits.
    #[inline(always)]
    fn put_eight(&mut self, number: u32) {
        self.put(&(eight_digits(number) | ZEROS).to_le_bytes(), 8);
    }

    /// Puts the entries. Those of a row stand side by side and begin alike.
    #[inline(always)]
    fn put_entries(&mut self, lines: &Lines, words: &[u32]) {
        let processes = lines.processes.len() as u32;
        let items = processes + lines.edges.len() as u32;
        let mut row = u32::MAX;
        let mut begin = [0; 16];
        let mut length = 0;
        for entry in words.chunks_exact(5) {
            if entry[0] != row {
                row = entry[0];
                (begin, length) = if row < processes {
                    row_begin(b"(start ", row)
                } else if row < items {
                    row_begin(b"(send ", row - processes)
                } else {
                    row_begin(b"(tell ", row - items)
                };
            }
            self.put(&begin, length);
            self.put_column(entry[1] as usize, entry[2] as usize);
            self.put(b") (at \0\0", 6);
            self.put_number(entry[3]);
            if row >= processes {
                self.put(b") (place \0\0\0\0\0\0\0", 9);
                self.put_two_digits(entry[4]);
            }
            self.put(b"))\n\0", 3);
        }
    }

    /// Puts the values of a column, those of three conditions at a time.
    #[inline(always)]
    fn put_column(&mut self, known: usize, values: usize) {
        for (first, part) in COLUMNS.iter().enumerate() {
            let (known, values) = (known >> (first * 3) & 7, values >> (first * 3) & 7);
            let (bytes, count) = &part[known << 3 | values];
            self.put(bytes, usize::from(*count));
        }
    }

    /// Puts a number below 100.
    #[inline(always)]
    fn put_two_digits(&mut self, number: u32) {
        if number < 10 {
            self.put(&[b'0' + number as u8], 1);
        } else {
            self.put(&[b'0' + (number / 10) as u8, b'0' + (number % 10) as u8], 2);
        }
    }

    #[inline(always)]
    fn put_frames(&mut self, frame_words: &[u32]) {
        for frame in frame_words.chunks_exact(3) {
            self.put(b"(frame \0", 7);
            self.put_number(frame[0]);
            self.put(b" (node \0", 7);
            self.put(&[b'0' + frame[1] as u8], 1);
            self.put(b") (bytes \0\0\0\0\0\0\0", 9);
            self.put_two_digits(frame[2]);
            self.put(b"))\n\0", 3);
        }
    }
}

/// Eight zeros.
const ZEROS: u64 = 0x3030_3030_3030_3030;

/// The eight digits of a number below a hundred million, each a byte, the first the lowest: two
/// numbers of four digits, then four of two, then eight of one, side by side in one word.
#[inline(always)]
fn eight_digits(number: u32) -> u64 {
    let number = u64::from(number);
    let fours = (number / 10_000) | ((number % 10_000) << 32);
    let hundreds = ((fours * 10_486) >> 20) & 0x7f_0000_007f;
    let twos = hundreds | ((fours - 100 * hundreds) << 16);
    let tens = ((twos * 103) >> 10) & 0x000f_000f_000f_000f;
    tens | ((twos - 10 * tens) << 8)
}

/// How the entries of a row begin, and how many bytes count.
fn row_begin(word: &[u8], number: u32) -> ([u8; 16], usize) {
    let mut begin = [0; 16];
    let mut length = 0;
    let mut put = |byte: u8| {
        begin[length] = byte;
        length += 1;
    };
    word.iter().for_each(|&byte| put(byte));
    if number >= 100 {
        put(b'0' + (number / 100) as u8);
    }
    if number >= 10 {
        put(b'0' + (number / 10 % 10) as u8);
    }
    put(b'0' + (number % 10) as u8);
    b" (when".iter().for_each(|&byte| put(byte));
    (begin, length)
}

/// For three conditions, by known bits and values, their part of a column, and how many bytes count.
type Columns = [([u8; 32], u8); 64];

/// For conditions 0 to 2, and for 3 to 5.
static COLUMNS: [Columns; 2] = [columns(0), columns(3)];

const fn columns(first: u8) -> Columns {
    let mut columns = [([0; 32], 0); 64];
    let mut number = 0;
    while number < 64 {
        let mut bytes = [0; 32];
        let mut count = 0;
        let mut condition = 0;
        while condition < 3 {
            if number >> 3 >> condition & 1 == 1 {
                let value: &[u8] = if number >> condition & 1 == 1 {
                    b" (true "
                } else {
                    b" (false "
                };
                let mut place = 0;
                while place < value.len() {
                    bytes[count] = value[place];
                    count += 1;
                    place += 1;
                }
                bytes[count] = b'0' + first + condition as u8;
                bytes[count + 1] = b')';
                count += 2;
            }
            condition += 1;
        }
        columns[number] = (bytes, count as u8);
        number += 1;
    }
    columns
}

#[cfg(test)]
mod tests {
    use super::*;

    fn printed(number: u64) -> Vec<u8> {
        Printer::default()
            .print(|pen| pen.put_great(number))
            .to_vec()
    }

    #[test]
    fn numbers_of_every_length() {
        let mut power = 1u64;
        loop {
            for near in 0..1_000 {
                for number in [power.saturating_sub(near), power.saturating_add(near)] {
                    assert_eq!(printed(number), number.to_string().into_bytes());
                    let below = (number % 100_000_000) as u32;
                    let digits = (eight_digits(below) | ZEROS).to_le_bytes();
                    assert_eq!(digits, format!("{below:08}").as_bytes());
                }
            }
            match power.checked_mul(10) {
                None => break,
                Some(next) => power = next,
            }
        }
    }

    #[test]
    fn the_longest_lines_fit() {
        let mut printer = Printer::default();
        let mut lines = crate::reading::no_lines();
        let edge = reference::Edge {
            from: 0,
            to: 1,
            bytes: 1,
            when: reference::When::Always,
        };
        lines.edges.resize(128, edge);
        let slot = reference::Slot { node: 0, bytes: 1 };
        lines.slots.resize(8, slot);
        let condition = reference::Condition { process: 0 };
        lines.conditions.resize(6, condition);
        let entry = [127, 63, 0, 999_999_999, 63];
        let outcome = Outcome {
            words: PROGRAM_WORDS,
            frame_words: PROGRAM_FRAME_WORDS,
            passed_by_node: [u64::MAX; 8],
            delay: u64::MAX,
        };
        let words = entry.repeat(3_000);
        let frames = [999_999_999, 7, 64].repeat(2_000);
        let printed = printer.listing(&lines, &outcome, &words, &frames).to_vec();
        let passed = &outcome.passed_by_node;
        let listing = reference::listing(&lines, outcome.delay, passed, &words, &frames);
        assert!(printed == listing);
        assert!(printed.len() <= LONGEST_LISTING && printed.len() > LONGEST_LISTING - 100);
    }
}
