// Memory for what is lent: pages between two that may not be touched. A slice stands against the wall behind it, against the wall before it, or
// between canaries, there at every address that its elements may have; which of these changes from one slice to the next.
use std::cell::{Cell, RefCell};
use std::ffi::{c_int, c_void};
use std::io::Write;
use std::sync::Mutex;

const WALL: usize = 65_536; // no page of either kind of machine is larger
const MARGIN: usize = 32;
const NOT_TOUCHED: c_int = 0;
const READ_AND_WRITTEN: c_int = 3;
const PRIVATE_WITHOUT_FILE: c_int = 0x22;
const BAD_ADDRESSES: [c_int; 2] = [7, 11]; // SIGBUS and SIGSEGV

unsafe extern "C" {
    fn mmap(at: *mut c_void, length: usize, protection: c_int, flags: c_int, file: c_int, offset: i64) -> *mut c_void;
    fn mprotect(at: *mut c_void, length: usize, protection: c_int) -> c_int;
    fn signal(number: c_int, handler: usize) -> usize;
    fn _exit(status: c_int) -> !;
}

// What is run at present, for the line that a touched wall leaves.
pub static NOW: Mutex<(&str, u64)> = Mutex::new(("", 0));

extern "C" fn touched(_: c_int) {
    let (phase, case) = NOW.try_lock().map_or(("?", 0), |now| *now);
    let mut line = std::io::Cursor::new([0u8; 256]);
    let _ = writeln!(line, "DIFFERENCE in {phase}, case {case}: a page beside a lent slice was touched");
    let written = line.position() as usize;
    let _ = std::io::stdout().write_all(&line.into_inner()[..written]);
    let _ = std::io::stdout().flush();
    unsafe { _exit(1) }
}

// From here on a touched wall ends the run as a difference does.
pub fn watch() {
    let handler: extern "C" fn(c_int) = touched;
    for number in BAD_ADDRESSES {
        unsafe { signal(number, handler as *const () as usize) };
    }
}

// So many pages of memory between two walls, taken up again once they are free.
struct Room {
    first: *mut u8,
    bytes: usize,
}

thread_local! {
    static FREE: RefCell<Vec<Vec<Room>>> = RefCell::new((0..usize::BITS).map(|_| vec![]).collect());
    static PLACED: Cell<usize> = const { Cell::new(0) };
}

impl Room {
    fn new(least: usize) -> Room {
        let bytes = least.max(WALL).next_power_of_two();
        if let Some(free) = FREE.with_borrow_mut(|free| free[bytes.ilog2() as usize].pop()) {
            return free;
        }
        let whole = bytes + 2 * WALL;
        unsafe {
            let at = mmap(std::ptr::null_mut(), whole, NOT_TOUCHED, PRIVATE_WITHOUT_FILE, -1, 0);
            assert!(at as isize != -1, "{whole} bytes of memory");
            let first = at.cast::<u8>().add(WALL);
            assert_eq!(mprotect(first.cast(), bytes, READ_AND_WRITTEN), 0);
            Room { first, bytes }
        }
    }
}

// A copy of a list in such a room.
pub struct Guarded<T: Copy> {
    room: Room,
    before: usize, // how many canaries stand before it
    at: *mut T,
    behind: usize,
    canary: T,
    was: Vec<T>,
}

impl<T: Copy + PartialEq> Guarded<T> {
    pub fn new(list: &[T], canary: T) -> Guarded<T> {
        let (size, step) = (size_of::<T>(), align_of::<T>());
        let room = Room::new(size_of_val(list) + 2 * MARGIN * size + 16 * step);
        let placed = PLACED.replace(PLACED.get() + 1);
        let last = room.bytes - size_of_val(list);
        // a multiple of the alignment, each of sixteen in turn
        let (from, before, behind) = match placed * 7 / 3 % 4 {
            0 => (last / step * step, MARGIN, 0),
            1 => (0, 0, MARGIN),
            _ => (MARGIN * size + placed % 16 * step, MARGIN, MARGIN),
        };
        let at = unsafe { room.first.add(from).cast::<T>() };
        unsafe {
            (0..before).for_each(|i| at.sub(1 + i).write(canary));
            std::ptr::copy_nonoverlapping(list.as_ptr(), at, list.len());
            (0..behind).for_each(|i| at.add(list.len() + i).write(canary));
        }
        Guarded { room, before, at, behind, canary, was: list.to_vec() }
    }

    pub fn list(&self) -> &[T] {
        unsafe { std::slice::from_raw_parts(self.at, self.was.len()) }
    }

    pub fn list_mut(&mut self) -> &mut [T] {
        unsafe { std::slice::from_raw_parts_mut(self.at, self.was.len()) }
    }

    fn margins(&self) -> bool {
        let all = |from: *const T, n: usize| unsafe { std::slice::from_raw_parts(from, n) }.iter().all(|x| *x == self.canary);
        unsafe { all(self.at.sub(self.before), self.before) && all(self.at.add(self.was.len()), self.behind) }
    }

    // Whether list and margins are as they were.
    pub fn whole(&self) -> bool {
        self.holds(&self.was)
    }

    // Whether the margins are as they were, and the list is this one.
    pub fn holds(&self, list: &[T]) -> bool {
        self.margins() && self.list() == list
    }
}

impl<T: Copy> Drop for Guarded<T> {
    fn drop(&mut self) {
        let room = Room { ..self.room };
        FREE.with_borrow_mut(|free| free[room.bytes.ilog2() as usize].push(room));
    }
}
