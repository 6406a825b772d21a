//! The processor time of the programs that were waited for. It swings less than the clock where others use the machine too.

/// What Linux tells of the use of resources: seconds and microseconds for the program and for the system, and fourteen counts.
#[repr(C)]
#[derive(Default)]
struct Usage {
    program: [i64; 2],
    system: [i64; 2],
    counts: [i64; 14],
}

const CHILDREN: i32 = -1;

extern "C" {
    fn getrusage(who: i32, usage: *mut Usage) -> i32;
}

/// The seconds that all programs waited for have taken so far.
pub fn seconds_of_children() -> f64 {
    let mut usage = Usage::default();
    assert_eq!(unsafe { getrusage(CHILDREN, &mut usage) }, 0, "no usage is told");
    [usage.program, usage.system].iter().map(|time| time[0] as f64 + time[1] as f64 / 1e6).sum()
}
