//! The engine's calls with the layouts and the arguments of include/auttervil.h.

use bench::engine::{is_compiled, Clock, Ran, Session, Started, Stepped};
use std::slice;

/// auttervil_chart.
#[repr(C)]
pub struct Chart {
    numbers: *const u64,
    cells: usize,
    names: *const u8,
    bytes: usize,
}

const _: () = assert!(size_of::<Session>() == 12_344 && size_of::<Clock>() == 4_368);

/// # Safety
/// As for each function here: every place is there, aligned, as long as is said, and apart from the
/// others if it is written.
unsafe fn lent<'a>(chart: &Chart) -> (&'a [u64], &'a [u8]) {
    unsafe {
        (slice::from_raw_parts(chart.numbers, chart.cells), slice::from_raw_parts(chart.names, chart.bytes))
    }
}

/// # Safety
/// As above.
#[no_mangle]
pub unsafe extern "C" fn engine_is_compiled(chart: &Chart) -> u32 {
    let (numbers, names) = unsafe { lent(chart) };
    is_compiled(numbers, names).into()
}

/// # Safety
/// As above.
#[no_mangle]
pub unsafe extern "C" fn engine_start(
    session: &mut Session,
    clock: &mut Clock,
    chart: &Chart,
    trace: *mut u32,
    room: usize,
) -> Started {
    let (numbers, names) = unsafe { lent(chart) };
    session.start(clock, numbers, names, unsafe { slice::from_raw_parts_mut(trace, room) })
}

/// # Safety
/// As above.
#[no_mangle]
pub unsafe extern "C" fn engine_post(
    session: &mut Session,
    chart: &Chart,
    name: *const u8,
    length: usize,
) -> u32 {
    let (numbers, names) = unsafe { lent(chart) };
    session.post(numbers, names, unsafe { slice::from_raw_parts(name, length) })
}

/// # Safety
/// As above.
#[no_mangle]
pub unsafe extern "C" fn engine_run(
    session: &mut Session,
    clock: &mut Clock,
    chart: &Chart,
    rounds: u32,
    trace: *mut u32,
    room: usize,
) -> Ran {
    let (numbers, names) = unsafe { lent(chart) };
    session.run(clock, numbers, names, rounds, unsafe { slice::from_raw_parts_mut(trace, room) })
}

/// # Safety
/// As above.
#[no_mangle]
pub unsafe extern "C" fn engine_step(
    session: &mut Session,
    clock: &mut Clock,
    chart: &Chart,
    name: *const u8,
    length: usize,
    rounds: u32,
    trace: *mut u32,
    room: usize,
) -> Stepped {
    let (numbers, names) = unsafe { lent(chart) };
    let name = unsafe { slice::from_raw_parts(name, length) };
    session.step(clock, numbers, names, name, rounds, unsafe { slice::from_raw_parts_mut(trace, room) })
}
