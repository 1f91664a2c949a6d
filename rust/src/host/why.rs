// The reason's two entries and the class's by the C ABI: each slice crosses as pointer and length, and the answers of 16 bytes come back by value.
#[repr(C)]
#[derive(Clone, Copy, Default)]
pub struct HostReason {
    pub number: u32,
    pub place: u32,
    pub detector: u32,
    pub count: u32,
}

#[repr(C)]
#[derive(Clone, Copy, Default)]
pub struct HostClass {
    pub number: u32,
    pub place: u32,
    pub flags: u32,
    pub range: u32,
}

// The layouts that the library writes.
const _: () = assert!(size_of::<HostReason>() == 16 && size_of::<HostClass>() == 16);

#[rustfmt::skip]
unsafe extern "C" {
    fn drasumira_reason(text: *const u32, n: usize, threshold: f32,
        classes: *const u8, classes_n: usize, pairs: *const u8, pairs_n: usize, out: *mut u32, room: usize) -> HostReason;
    fn drasumira_reason_utf8(bytes: *const u8, n: usize, threshold: f32,
        classes: *const u8, classes_n: usize, pairs: *const u8, pairs_n: usize, out: *mut u32, room: usize) -> HostReason;
    fn drasumira_class(point: u32, classes: *const u8, n: usize) -> HostClass;
}

pub fn reason(text: &[u32], threshold: f32, classes: &[u8], pairs: &[u8], out: &mut [u32]) -> HostReason {
    let (t, n, o, room) = (text.as_ptr(), text.len(), out.as_mut_ptr(), out.len());
    // SAFETY: as at the head of host.rs.
    unsafe { drasumira_reason(t, n, threshold, classes.as_ptr(), classes.len(), pairs.as_ptr(), pairs.len(), o, room) }
}

pub fn reason_utf8(bytes: &[u8], threshold: f32, classes: &[u8], pairs: &[u8], out: &mut [u32]) -> HostReason {
    let (b, n, o, room) = (bytes.as_ptr(), bytes.len(), out.as_mut_ptr(), out.len());
    // SAFETY: as at the head of host.rs.
    unsafe { drasumira_reason_utf8(b, n, threshold, classes.as_ptr(), classes.len(), pairs.as_ptr(), pairs.len(), o, room) }
}

pub fn class(point: u32, classes: &[u8]) -> HostClass {
    // SAFETY: as at the head of host.rs.
    unsafe { drasumira_class(point, classes.as_ptr(), classes.len()) }
}
