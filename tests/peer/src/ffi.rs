//! The proved solver through its C interface, with buffers that end or begin at a guard page; and document 01's plain
//! forms of figure, verdict and cut, which are proved too and which the interface's search is compared with.

use crate::guard::{call_on_stack, Guarded};

mod raw {
    extern "C" {
        pub fn ssat_read(rule: *const u8, len: usize, out: *mut u64) -> u32;
        pub fn ssat_read_small(rule: *const u8, len: usize, out: *mut u64) -> u32;
        pub fn ssat_figure(rule: *const u8, len: usize, out: *mut u64) -> u32;
        pub fn ssat_verdict(rule: *const u8, len: usize, lo: u64, hi: u64, out: *mut u64) -> u32;
        pub fn ssat_cut(rule: *const u8, len: usize, level: u64, out: *mut u64) -> u32;
        pub fn ssat_check(rule: *const u8, len: usize, derivation: *const u8, dlen: usize, out: *mut u64) -> u32;
        pub fn ssat_derive(rule: *const u8, len: usize, buffer: *mut u8, capacity: usize, out: *mut u64) -> u32;
        pub fn ssat_repair(rule: *const u8, len: usize, buffer: *mut u8, capacity: usize, out: *mut u64) -> u32;
        pub fn ssat_tally(rule: *const u8, len: usize, lo: u64, hi: u64, tally: *mut u64, out: *mut u64) -> u32;
        pub fn ssat_point(rule: *const u8, len: usize, level: u64, point: *mut f64, out: *mut u64) -> u32;
        pub fn plain_figure(rule: *const u8, len: usize, out: *mut u64) -> u32;
        pub fn plain_verdict(rule: *const u8, len: usize, lo: u64, hi: u64, out: *mut u64) -> u32;
        pub fn plain_cut(rule: *const u8, len: usize, level: u64, out: *mut u64) -> u32;
    }
}

/// Return value and `out` after the call.
pub type Returned = (u32, [u64; 4]);

/// What stands in `out` before each call.
pub const BEFORE: [u64; 4] = [0xa1a1_a1a1_0000_0001, 0xa2a2_a2a2_0000_0002, 0xa3a3_a3a3_0000_0003, u64::MAX - 4];

/// What stands in the point before each call, by its bits: a double that is no share, and two that are no numbers and
/// would not stay as they are in arithmetic.
pub const POINT_BEFORE: [u64; 3] = [0xc01d_5a5a_5a5a_5a5a, 0x7ff0_0000_0000_0001, 0xfff4_a5a5_a5a5_a5a5];

/// Where a lent buffer lies in its pages.
#[derive(Clone, Copy, Debug, PartialEq, Eq)]
pub enum Place {
    /// It ends where the guard page after it begins.
    AtEnd,
    /// It begins where the guard page before it ends.
    AtStart,
}

const FILL: u8 = 0x5a;
/// The longest buffer that can be lent.
pub const LONGEST: usize = 17 * 4_096;

/// What stands in the buffer of so many bytes that is lent for writing, before each call.
pub fn buffer_before(capacity: usize) -> Vec<u8> {
    (0..capacity).map(|at| (at * 37 + 11) as u8).collect()
}

/// One lent buffer, and the bytes that it held then.
struct Lent {
    pages: Guarded,
    place: Place,
    bytes: Vec<u8>,
}

impl Lent {
    fn new() -> Lent {
        let mut pages = Guarded::new(LONGEST);
        pages.all().fill(FILL);
        Lent { pages, place: Place::AtEnd, bytes: Vec::new() }
    }

    fn range(&self) -> std::ops::Range<usize> {
        match self.place {
            Place::AtEnd => LONGEST - self.bytes.len()..LONGEST,
            Place::AtStart => 0..self.bytes.len(),
        }
    }

    fn lend(&mut self, bytes: &[u8], place: Place) {
        let old = self.range();
        self.pages.all()[old].fill(FILL);
        self.bytes.clear();
        self.bytes.extend_from_slice(bytes);
        self.place = place;
        let new = self.range();
        self.pages.all()[new].copy_from_slice(bytes);
    }

    fn start(&mut self) -> *mut u8 {
        let at = self.range().start;
        unsafe { self.pages.all().as_mut_ptr().add(at) }
    }

    /// Panics if one of the next 64 bytes beside the lent ones changed.
    fn beside_unchanged(&mut self, what: &str) {
        let range = self.range();
        let all = self.pages.all();
        let beside = match self.place {
            Place::AtEnd => &all[range.start.saturating_sub(64)..range.start],
            Place::AtStart => &all[range.end..(range.end + 64).min(LONGEST)],
        };
        assert!(beside.iter().all(|byte| *byte == FILL), "a byte beside the {what} changed");
    }

    /// Panics if a lent byte, or one beside it, changed.
    fn unchanged(&mut self, what: &str) {
        self.beside_unchanged(what);
        let range = self.range();
        assert!(self.pages.all()[range] == self.bytes[..], "a lent byte of the {what} changed");
    }

    /// The lent bytes. Panics if one beside them changed.
    fn content(&mut self, what: &str) -> Vec<u8> {
        self.beside_unchanged(what);
        let range = self.range();
        self.pages.all()[range].to_vec()
    }
}

/// The static libraries, with their buffers.
pub struct Library {
    rule: Lent,
    derivation: Lent,
    buffer: Lent,
    out: Guarded,
}

impl Default for Library {
    fn default() -> Library {
        Library::new()
    }
}

impl Library {
    pub fn new() -> Library {
        Library { rule: Lent::new(), derivation: Lent::new(), buffer: Lent::new(), out: Guarded::new(1) }
    }

    pub fn lend_rule(&mut self, bytes: &[u8], place: Place) {
        self.rule.lend(bytes, place);
    }

    pub fn lend_derivation(&mut self, bytes: &[u8], place: Place) {
        self.derivation.lend(bytes, place);
    }

    /// Lets the lent buffers be read only, or be lent anew.
    pub fn read_only(&mut self, on: bool) {
        self.rule.pages.read_only(on);
        self.derivation.pages.read_only(on);
    }

    /// Calls an operation that puts its answer into `out`, at the end of its pages, and looks at all bytes afterwards
    /// that are lent for reading.
    fn call(&mut self, call: impl FnOnce(*const u8, usize, *const u8, usize, *mut u64) -> u32) -> Returned {
        let all = self.out.all();
        let start = all.len() - size_of_val(&BEFORE);
        all.fill(FILL);
        let out: *mut [u64; 4] = all[start..].as_mut_ptr().cast();
        unsafe { out.write(BEFORE) };
        let (rule, len) = (self.rule.start(), self.rule.bytes.len());
        let (derivation, dlen) = (self.derivation.start(), self.derivation.bytes.len());
        let code = call(rule, len, derivation, dlen, out.cast());
        self.rule.unchanged("rule file");
        self.derivation.unchanged("derivation");
        let after = unsafe { out.read() };
        let all = self.out.all();
        assert!(all[..start].iter().all(|byte| *byte == FILL), "a byte before `out` changed");
        (code, after)
    }

    pub fn read(&mut self) -> Returned {
        self.call(|rule, len, _, _, out| unsafe { raw::ssat_read(rule, len, out) })
    }

    pub fn read_small(&mut self) -> Returned {
        self.call(|rule, len, _, _, out| unsafe { raw::ssat_read_small(rule, len, out) })
    }

    pub fn figure(&mut self) -> Returned {
        self.call(|rule, len, _, _, out| unsafe { raw::ssat_figure(rule, len, out) })
    }

    pub fn verdict(&mut self, lo: u64, hi: u64) -> Returned {
        self.call(|rule, len, _, _, out| unsafe { raw::ssat_verdict(rule, len, lo, hi, out) })
    }

    /// Lends a tally of these counts: also what they are after the call.
    pub fn tally(&mut self, lo: u64, hi: u64, counts: [u64; 5], place: Place) -> (Returned, [u64; 5]) {
        self.buffer.lend(&counts.map(u64::to_ne_bytes).concat(), place);
        let tally = self.buffer.start().cast();
        let returned = self.call(|rule, len, _, _, out| unsafe { raw::ssat_tally(rule, len, lo, hi, tally, out) });
        self.buffer.beside_unchanged("tally");
        (returned, unsafe { tally.cast::<[u64; 5]>().read() })
    }

    pub fn cut(&mut self, level: u64) -> Returned {
        self.call(|rule, len, _, _, out| unsafe { raw::ssat_cut(rule, len, level, out) })
    }

    /// Lends a point: also what it holds after the call, by its bits.
    pub fn point(&mut self, level: u64, place: Place) -> (Returned, [u64; 3]) {
        self.buffer.lend(&POINT_BEFORE.map(u64::to_ne_bytes).concat(), place);
        let point = self.buffer.start().cast();
        let returned = self.call(|rule, len, _, _, out| unsafe { raw::ssat_point(rule, len, level, point, out) });
        self.buffer.beside_unchanged("point");
        (returned, unsafe { point.cast::<[u64; 3]>().read() })
    }

    pub fn plain_figure(&mut self) -> Returned {
        self.call(|rule, len, _, _, out| unsafe { raw::plain_figure(rule, len, out) })
    }

    pub fn plain_verdict(&mut self, lo: u64, hi: u64) -> Returned {
        self.call(|rule, len, _, _, out| unsafe { raw::plain_verdict(rule, len, lo, hi, out) })
    }

    pub fn plain_cut(&mut self, level: u64) -> Returned {
        self.call(|rule, len, _, _, out| unsafe { raw::plain_cut(rule, len, level, out) })
    }

    pub fn check(&mut self) -> Returned {
        self.call(|rule, len, derivation, dlen, out| unsafe { raw::ssat_check(rule, len, derivation, dlen, out) })
    }

    /// Lends the writer a buffer of `capacity` bytes: also what it holds after the call.
    pub fn derive(&mut self, capacity: usize, place: Place) -> (Returned, Vec<u8>) {
        self.buffer.lend(&buffer_before(capacity), place);
        let buffer = self.buffer.start();
        let returned = self.call(|rule, len, _, _, out| unsafe { raw::ssat_derive(rule, len, buffer, capacity, out) });
        (returned, self.buffer.content("buffer"))
    }

    /// Lends the repair a buffer of `capacity` bytes: also what it holds after the call.
    pub fn repair(&mut self, capacity: usize, place: Place) -> (Returned, Vec<u8>) {
        self.buffer.lend(&buffer_before(capacity), place);
        let buffer = self.buffer.start();
        let returned = self.call(|rule, len, _, _, out| unsafe { raw::ssat_repair(rule, len, buffer, capacity, out) });
        (returned, self.buffer.content("buffer"))
    }
}

/// The marks of a point that was returned: `out` has how many there are, and a single one is low and high. Fails if a
/// refusal changed the point.
pub fn marks(((code, out), point): (Returned, [u64; 3])) -> Vec<u64> {
    match (code, out[0]) {
        (0, 1) if point[0] == point[1] => vec![point[0]],
        (0, 2) => point[..2].to_vec(),
        (0, _) => panic!("no marks: {out:?}, {point:x?}"),
        _ => {
            assert_eq!(point, POINT_BEFORE, "refused by {code}");
            Vec::new()
        }
    }
}

/// What the small reader returns, and the bytes of stack that the call uses.
pub fn read_small_on_stack(rule: &[u8]) -> (Returned, usize) {
    let mut out = BEFORE;
    let (code, used) = unsafe { call_on_stack(raw::ssat_read_small, rule, &mut out) };
    ((code, out), used)
}

/// Calls on slices, without guard pages, for the benchmark.
pub mod direct {
    use super::{raw, Returned};

    pub fn read(rule: &[u8]) -> Returned {
        let mut out = [0; 4];
        (unsafe { raw::ssat_read(rule.as_ptr(), rule.len(), out.as_mut_ptr()) }, out)
    }

    pub fn read_small(rule: &[u8]) -> Returned {
        let mut out = [0; 4];
        (unsafe { raw::ssat_read_small(rule.as_ptr(), rule.len(), out.as_mut_ptr()) }, out)
    }

    pub fn figure(rule: &[u8]) -> Returned {
        let mut out = [0; 4];
        (unsafe { raw::ssat_figure(rule.as_ptr(), rule.len(), out.as_mut_ptr()) }, out)
    }

    pub fn verdict(rule: &[u8], lo: u64, hi: u64) -> Returned {
        let mut out = [0; 4];
        (unsafe { raw::ssat_verdict(rule.as_ptr(), rule.len(), lo, hi, out.as_mut_ptr()) }, out)
    }

    pub fn cut(rule: &[u8], level: u64) -> Returned {
        let mut out = [0; 4];
        (unsafe { raw::ssat_cut(rule.as_ptr(), rule.len(), level, out.as_mut_ptr()) }, out)
    }

    pub fn point(rule: &[u8], level: u64) -> (Returned, [f64; 3]) {
        let (mut out, mut point) = ([0; 4], [0.0; 3]);
        let code = unsafe { raw::ssat_point(rule.as_ptr(), rule.len(), level, point.as_mut_ptr(), out.as_mut_ptr()) };
        ((code, out), point)
    }

    pub fn check(rule: &[u8], derivation: &[u8]) -> Returned {
        let mut out = [0; 4];
        let code = unsafe {
            raw::ssat_check(rule.as_ptr(), rule.len(), derivation.as_ptr(), derivation.len(), out.as_mut_ptr())
        };
        (code, out)
    }

    pub fn derive(rule: &[u8], buffer: &mut [u8]) -> Returned {
        let mut out = [0; 4];
        let code =
            unsafe { raw::ssat_derive(rule.as_ptr(), rule.len(), buffer.as_mut_ptr(), buffer.len(), out.as_mut_ptr()) };
        (code, out)
    }

    pub fn repair(rule: &[u8], buffer: &mut [u8]) -> Returned {
        let mut out = [0; 4];
        let code =
            unsafe { raw::ssat_repair(rule.as_ptr(), rule.len(), buffer.as_mut_ptr(), buffer.len(), out.as_mut_ptr()) };
        (code, out)
    }
}
