//! Whole inputs of the trace program, and what it should write for each.

pub mod damage;
pub mod made;
pub mod traced;

/// The longest input that the program reads, and the rows of its table.
pub const LONGEST: usize = 65_536;
pub const ROWS: u64 = 256;

/// The input with good lines behind it, to exactly this length; one that is nearly as long stays as it is.
pub fn lengthened(mut input: Vec<u8>, length: usize) -> Vec<u8> {
    let long = b"r 18446744073709551615\n";
    while input.len() + long.len() + 12 <= length {
        input.extend_from_slice(long);
    }
    while input.len() + 12 <= length || input.len() + 4 <= length && (length - input.len()).is_multiple_of(4) {
        let line: &[u8] = if (length - input.len()).is_multiple_of(4) {
            b"r 0\n"
        } else {
            b"r 10\n"
        };
        input.extend_from_slice(line);
    }
    input
}
