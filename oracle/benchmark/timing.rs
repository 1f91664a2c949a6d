// How a call is timed: processor time of the thread, so that what else the machine does shows little; sides that are compared take turns, round by round, so that what is left of it
// meets them all; and each side's figure is that of its fastest round, the one that was disturbed least.
const ROUNDS: usize = 9;
const ROUND_NANOSECONDS: f64 = 4e6;

// Nanoseconds of processor time that this thread has had.
pub fn now() -> f64 {
    const THREAD: i32 = 3; // CLOCK_THREAD_CPUTIME_ID of Linux
    unsafe extern "C" {
        fn clock_gettime(clock: i32, time: *mut [i64; 2]) -> i32;
    }
    let mut time = [0; 2];
    assert_eq!(unsafe { clock_gettime(THREAD, &mut time) }, 0, "no clock of a thread's processor time");
    time[0] as f64 * 1e9 + time[1] as f64
}

// Nanoseconds of a call, of so many in a row.
fn round(call: &mut dyn FnMut(), calls: usize) -> f64 {
    let began = now();
    (0..calls).for_each(|_| call());
    (now() - began) / calls as f64
}

// As many calls as make some milliseconds, found by the second call: the first pays for cold caches and memory.
fn calls_of_a_round(call: &mut dyn FnMut()) -> usize {
    call();
    (ROUND_NANOSECONDS / (round(call, 1) + 1.0)).ceil() as usize
}

// Nanoseconds of one call of each side.
pub fn in_turns<const N: usize>(mut sides: [&mut dyn FnMut(); N]) -> [f64; N] {
    let calls = sides.each_mut().map(|side| calls_of_a_round(side));
    let mut least = [f64::MAX; N];
    for _ in 0..ROUNDS {
        for (at, side) in sides.iter_mut().enumerate() {
            least[at] = least[at].min(round(side, calls[at]));
        }
    }
    least
}

// Nanoseconds of one call that nothing is compared with.
pub fn nanoseconds(mut call: impl FnMut()) -> f64 {
    in_turns([&mut call])[0]
}
