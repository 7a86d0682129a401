//! A scan of a trace by its words: where it is done, they are those of the scan behind.

use uglezmir_sys::numbers::{ALLOW, POLICY_LONGS, POLICY_SHORTS, TRACE_LINE, TRACE_PLACES};
use uglezmir_sys::{peers, traces};

const TABLE: usize = 256 * 121;

/// The words of a scan, the table and the line that it is lent.
struct Scanned {
    place: [u64; TRACE_PLACES],
    longs: [u64; POLICY_LONGS],
    shorts: [u32; POLICY_SHORTS],
    table: Vec<u8>,
    line: [u8; TRACE_LINE],
}

impl Scanned {
    fn open(input: &[u8]) -> Scanned {
        let mut s = Scanned {
            place: [9; TRACE_PLACES],
            longs: [9; POLICY_LONGS],
            shorts: [9; POLICY_SHORTS],
            table: vec![9; TABLE],
            line: [9; TRACE_LINE],
        };
        traces::open(&mut s.place, &mut s.longs, &mut s.shorts, input);
        s
    }

    fn next(&mut self, input: &[u8]) -> u32 {
        traces::next(
            &mut self.place,
            &mut self.longs,
            &mut self.shorts,
            input,
            &mut self.table,
            &mut self.line,
        )
    }
}

#[test]
fn settings_alone_leave_the_policy_that_they_made() {
    let input = b"10 2 0 0 2 100 2 4 1000\n";
    let mut s = Scanned::open(input);
    assert_eq!(s.next(input), 0);
    assert_eq!(s.place, [24, 2, 2]);
    assert_eq!(s.longs, [10, 0, 0, 100, 2, 1000, 0, 0]);
    assert_eq!(s.shorts, [2, 2, 4, 0]);
    assert_eq!(s.line, [0; TRACE_LINE]);
    assert!(s.table[..2 * 121].iter().all(|&b| b == 0) && s.table[2 * 121..].iter().all(|&b| b == 9));
    assert_eq!(
        peers::admit(&mut s.longs, &mut s.shorts, &mut s.table, &[2; 33], 300, 50),
        ALLOW
    );
}

#[test]
fn a_scan_that_is_done_stays_as_it_is() {
    for input in [
        &b"10 2 0 0 2 100 2 4 1000\n"[..],
        b"10 2 0 0 2 100 2 4 1000\na 02 300 50\n",
        b"no settings\n",
    ] {
        let mut s = Scanned::open(input);
        while s.next(input) > 0 {}
        let (place, longs, shorts) = (s.place, s.longs, s.shorts);
        s.table.fill(7);
        assert_eq!(s.next(input), 0);
        assert_eq!((s.place, s.longs, s.shorts), (place, longs, shorts));
        assert!(s.table.iter().all(|&b| b == 7));
    }
}
