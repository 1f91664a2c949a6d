// The ring's three entries by the C ABI: each slice crosses as pointer and length, and the answer of 16 bytes comes back by value.
#[repr(C)]
#[derive(Clone, Copy, Debug, Default, PartialEq, Eq)]
pub struct HostRing {
    pub number: u32,
    pub place: u32,
    pub head: u32,
    pub count: u32,
}

// The layout that the library writes.
const _: () = assert!(size_of::<HostRing>() == 16);

#[rustfmt::skip]
unsafe extern "C" {
    fn drasumira_ring_open(ring: *const u8, n: usize) -> HostRing;
    fn drasumira_ring_put(ring: *mut u8, n: usize, head: u32, count: u32,
        line: u64, bits: u32, fed: u32, stopped: u32, refusal: u32) -> HostRing;
    fn drasumira_ring_flush(ring: *const u8, n: usize, head: u32, count: u32, most: u32, out: *mut u8, room: usize) -> HostRing;
}

// The numbers of a record.
pub struct Numbers {
    pub line: u64,
    pub bits: u32,
    pub fed: u32,
    pub stopped: u32,
    pub refusal: u32,
}

pub fn open(ring: &[u8]) -> HostRing {
    // SAFETY: as at the head of host.rs.
    unsafe { drasumira_ring_open(ring.as_ptr(), ring.len()) }
}

pub fn put(ring: &mut [u8], head: u32, count: u32, n: &Numbers) -> HostRing {
    // SAFETY: as at the head of host.rs.
    unsafe { drasumira_ring_put(ring.as_mut_ptr(), ring.len(), head, count, n.line, n.bits, n.fed, n.stopped, n.refusal) }
}

pub fn flush(ring: &[u8], head: u32, count: u32, most: u32, out: &mut [u8]) -> HostRing {
    // SAFETY: as at the head of host.rs.
    unsafe { drasumira_ring_flush(ring.as_ptr(), ring.len(), head, count, most, out.as_mut_ptr(), out.len()) }
}
