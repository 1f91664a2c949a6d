// The four entries of the running score by the C ABI: the state is 48 u32, which are lent; the answers of opening and closing come back through the first
// pointer.
use super::{HostRead, HostScore};

// How many numbers a state is.
pub const NUMBERS: usize = 48;

// Where some of them stand: the first five, and behind the detectors the places of the last growths.
pub const LENGTH: usize = 0;
pub const RECEIVED: usize = 1;
pub const FED: usize = 2;
pub const STOPPED: usize = 4;
pub const GROWN: usize = 40;

pub type HostRunning = [u32; NUMBERS];

#[repr(C)]
#[derive(Clone, Copy)]
pub struct HostOpened {
    pub number: u32,
    pub place: u32,
    pub state: HostRunning,
}

// The layouts that the library writes.
const _: () = assert!(size_of::<HostRunning>() == 192 && size_of::<HostOpened>() == 200 && std::mem::offset_of!(HostOpened, state) == 8);

#[rustfmt::skip]
unsafe extern "C" {
    fn drasumira_open(told: *mut HostOpened, length: u32, threshold: f32,
        classes: *const u8, classes_n: usize, pairs: *const u8, pairs_n: usize) -> *mut HostOpened;
    fn drasumira_feed(state: *mut HostRunning, point: u32,
        classes: *const u8, classes_n: usize, pairs: *const u8, pairs_n: usize) -> HostRead;
    fn drasumira_feed_all(state: *mut HostRunning, text: *const u32, n: usize,
        classes: *const u8, classes_n: usize, pairs: *const u8, pairs_n: usize) -> HostRead;
    fn drasumira_close(told: *mut HostScore, state: *const HostRunning) -> *mut HostScore;
}

pub fn open(length: u32, threshold: f32, classes: &[u8], pairs: &[u8]) -> HostOpened {
    let mut told = HostOpened { number: 0, place: 0, state: [0; NUMBERS] };
    // SAFETY: as at the head of host.rs; `told` is a local of the answer's type.
    unsafe { drasumira_open(&mut told, length, threshold, classes.as_ptr(), classes.len(), pairs.as_ptr(), pairs.len()) };
    told
}

pub fn feed(state: &mut HostRunning, point: u32, classes: &[u8], pairs: &[u8]) -> HostRead {
    // SAFETY: as at the head of host.rs; the state is a `&mut` of the entry's type, and every u32 is a number of it.
    unsafe { drasumira_feed(state, point, classes.as_ptr(), classes.len(), pairs.as_ptr(), pairs.len()) }
}

pub fn feed_all(state: &mut HostRunning, text: &[u32], classes: &[u8], pairs: &[u8]) -> HostRead {
    let (c, p) = (classes, pairs);
    // SAFETY: as at the head of host.rs; the state is a `&mut` of the entry's type, and every u32 is a number of it.
    unsafe { drasumira_feed_all(state, text.as_ptr(), text.len(), c.as_ptr(), c.len(), p.as_ptr(), p.len()) }
}

pub fn close(state: &HostRunning) -> HostScore {
    let mut told = HostScore::default();
    // SAFETY: as at the head of host.rs; `told` is a local of the answer's type, and the state is only read.
    unsafe { drasumira_close(&mut told, state) };
    told
}
