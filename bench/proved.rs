//! The proved side: the calls of the static libraries bench_c, bench_loads and editor, as their crates declare them.

use crate::networks::{Drawing, PairWords, WayWords};
use crate::sides::{Answer, Buffers, Side};

#[repr(C)]
#[derive(Clone, Copy)]
struct TraceAnswer {
    answered: bool,
    ones: usize,
}

#[repr(C)]
#[derive(Clone, Copy)]
struct CheckAnswer {
    answered: bool,
    blocked: bool,
    greatest: u32,
    held: usize,
}

#[repr(C)]
#[derive(Clone, Copy)]
struct RoutesAnswer {
    answered: bool,
    arriving: bool,
    held: usize,
}

#[repr(C)]
#[derive(Clone, Copy)]
struct Stand {
    full: bool,
    place: u16,
}

impl Stand {
    fn of(packet: Option<u16>) -> Stand {
        Stand { full: packet.is_some(), place: packet.unwrap_or(0) }
    }
}

#[repr(C)]
#[derive(Clone, Copy)]
struct DrainAnswer {
    answered: bool,
    refused: u16,
    calls: usize,
}

#[repr(C)]
#[derive(Clone, Copy)]
struct JudgeAnswer {
    answered: bool,
    holds: bool,
    offends: bool,
    channel: u16,
    place: u16,
}

#[repr(C)]
#[derive(Clone, Copy)]
struct PutsAnswer {
    answered: bool,
    accepted: usize,
}

// A slice crosses as a pointer and then a length, and the heap of the declarations there takes no parameter.
#[rustfmt::skip]
unsafe extern "C" {
    fn bench_c_spidergon_trace(size: u16, again: u32, allowed: *mut u8, allowed_len: usize, work: *mut u32, work_len: usize) -> TraceAnswer;
    fn bench_c_spidergon_check(size: u16, again: u32, allowed: *mut u8, allowed_len: usize, numbers: *mut u32, numbers_len: usize,
        stands: *mut Stand, stands_len: usize, work: *mut u32, work_len: usize) -> CheckAnswer;
    fn bench_c_spidergon_routes(size: u16, again: u32, allowed: *mut u8, allowed_len: usize, numbers: *mut u32, numbers_len: usize,
        work: *mut u32, work_len: usize) -> RoutesAnswer;
    fn bench_c_table_make(again: u32, channels: u16, places: u16, entries: *const PairWords, entries_len: usize,
        homes: *const PairWords, homes_len: usize, ways: *const WayWords, ways_len: usize) -> bool;
    fn bench_c_table_trace(again: u32, channels: u16, places: u16, entries: *const PairWords, entries_len: usize,
        homes: *const PairWords, homes_len: usize, ways: *const WayWords, ways_len: usize,
        allowed: *mut u8, allowed_len: usize, work: *mut u32, work_len: usize) -> TraceAnswer;
    fn bench_c_table_check(again: u32, channels: u16, places: u16, entries: *const PairWords, entries_len: usize,
        homes: *const PairWords, homes_len: usize, ways: *const WayWords, ways_len: usize,
        allowed: *mut u8, allowed_len: usize, numbers: *mut u32, numbers_len: usize,
        stands: *mut Stand, stands_len: usize, work: *mut u32, work_len: usize) -> CheckAnswer;
    fn bench_c_table_routes(again: u32, channels: u16, places: u16, entries: *const PairWords, entries_len: usize,
        homes: *const PairWords, homes_len: usize, ways: *const WayWords, ways_len: usize,
        allowed: *mut u8, allowed_len: usize, numbers: *mut u32, numbers_len: usize,
        work: *mut u32, work_len: usize) -> RoutesAnswer;
    fn bench_loads_drain(channels: u16, places: u16, entries: *const PairWords, entries_len: usize,
        homes: *const PairWords, homes_len: usize, ways: *const WayWords, ways_len: usize,
        allowed: *mut u8, allowed_len: usize, numbers: *mut u32, numbers_len: usize,
        stands: *mut Stand, stands_len: usize, work: *mut u32, work_len: usize) -> DrainAnswer;
    fn bench_loads_judge_numbers(channels: u16, places: u16, entries: *const PairWords, entries_len: usize,
        homes: *const PairWords, homes_len: usize, ways: *const WayWords, ways_len: usize,
        allowed: *mut u8, allowed_len: usize, numbers: *const u32, numbers_len: usize, work: *mut u32, work_len: usize) -> JudgeAnswer;
    fn bench_loads_judge_load(channels: u16, places: u16, entries: *const PairWords, entries_len: usize,
        homes: *const PairWords, homes_len: usize, ways: *const WayWords, ways_len: usize,
        allowed: *mut u8, allowed_len: usize, stands: *const Stand, stands_len: usize, work: *mut u32, work_len: usize) -> JudgeAnswer;
    fn bench_loads_put(channels: u16, places: u16, entries: *const PairWords, entries_len: usize,
        homes: *const PairWords, homes_len: usize, ways: *const WayWords, ways_len: usize,
        pairs: *const PairWords, pairs_len: usize, stands: *mut Stand, stands_len: usize) -> PutsAnswer;
    fn tenvarog_check(file: *const u8, file_len: usize, allowed: *mut u8, allowed_len: usize, numbers: *mut u32, numbers_len: usize,
        places: *mut u32, places_len: usize, work: *mut u32, work_len: usize, fault: *mut u32, fault_len: usize) -> u32;
}

pub struct Proved;

fn of_trace(given: TraceAnswer) -> Answer {
    assert!(given.answered, "the proved side refused to trace");
    Answer::Trace { ones: given.ones }
}

fn stands_of(load: &[Option<u16>]) -> Vec<Stand> {
    load.iter().copied().map(Stand::of).collect()
}

fn tell_load(stands: &[Stand], load: &mut [Option<u16>]) {
    for (packet, stand) in load.iter_mut().zip(stands) {
        *packet = stand.full.then_some(stand.place);
    }
}

fn of_check(given: CheckAnswer, stands: &[Stand], load: &mut [Option<u16>]) -> Answer {
    assert!(given.answered, "the proved side refused to check");
    tell_load(stands, load);
    Answer::Check { blocked: given.blocked, greatest: given.greatest, held: given.held }
}

fn of_routes(given: RoutesAnswer) -> Answer {
    assert!(given.answered, "the proved side refused the routes");
    Answer::Routes { arriving: given.arriving, held: given.held }
}

fn of_drain(given: DrainAnswer) -> Answer {
    assert!(given.answered, "the proved side made no table to drain on");
    match given.refused {
        0 => Answer::Drained { calls: given.calls },
        number => Answer::Refused { number, line: 0, field: 0 },
    }
}

fn of_judge(given: JudgeAnswer) -> Answer {
    assert!(given.answered, "the proved side refused to judge");
    match given {
        JudgeAnswer { holds: true, .. } => Answer::Holds,
        JudgeAnswer { offends: true, channel, place, .. } => Answer::Offends { channel, place },
        _ => Answer::NoPacket,
    }
}

// SAFETY of the calls below: the declarations above fit those of the crate, no call has a `requires`, and each pointer and
// length are those of one slice that is lent for the call.
#[rustfmt::skip]
impl Side for Proved {
    fn spidergon_trace(&self, size: u16, again: u32, b: &mut Buffers) -> Answer {
        of_trace(unsafe { bench_c_spidergon_trace(size, again, b.allowed.as_mut_ptr(), b.allowed.len(), b.work.as_mut_ptr(), b.work.len()) })
    }

    fn spidergon_check(&self, size: u16, again: u32, b: &mut Buffers) -> Answer {
        let mut stands = stands_of(&b.load);
        let given = unsafe { bench_c_spidergon_check(size, again, b.allowed.as_mut_ptr(), b.allowed.len(), b.numbers.as_mut_ptr(), b.numbers.len(),
            stands.as_mut_ptr(), stands.len(), b.work.as_mut_ptr(), b.work.len()) };
        of_check(given, &stands, &mut b.load)
    }

    fn spidergon_routes(&self, size: u16, again: u32, b: &mut Buffers) -> Answer {
        of_routes(unsafe { bench_c_spidergon_routes(size, again, b.allowed.as_mut_ptr(), b.allowed.len(), b.numbers.as_mut_ptr(), b.numbers.len(),
            b.work.as_mut_ptr(), b.work.len()) })
    }

    fn table_make(&self, n: &Drawing, again: u32) -> Answer {
        let made = unsafe { bench_c_table_make(again, n.channels, n.places, n.entries.as_ptr(), n.entries.len(),
            n.homes.as_ptr(), n.homes.len(), n.ways.as_ptr(), n.ways.len()) };
        assert!(made, "the proved side refused to make the table");
        Answer::Made
    }

    fn table_trace(&self, n: &Drawing, again: u32, b: &mut Buffers) -> Answer {
        of_trace(unsafe { bench_c_table_trace(again, n.channels, n.places, n.entries.as_ptr(), n.entries.len(),
            n.homes.as_ptr(), n.homes.len(), n.ways.as_ptr(), n.ways.len(),
            b.allowed.as_mut_ptr(), b.allowed.len(), b.work.as_mut_ptr(), b.work.len()) })
    }

    fn table_check(&self, n: &Drawing, again: u32, b: &mut Buffers) -> Answer {
        let mut stands = stands_of(&b.load);
        let given = unsafe { bench_c_table_check(again, n.channels, n.places, n.entries.as_ptr(), n.entries.len(),
            n.homes.as_ptr(), n.homes.len(), n.ways.as_ptr(), n.ways.len(),
            b.allowed.as_mut_ptr(), b.allowed.len(), b.numbers.as_mut_ptr(), b.numbers.len(),
            stands.as_mut_ptr(), stands.len(), b.work.as_mut_ptr(), b.work.len()) };
        of_check(given, &stands, &mut b.load)
    }

    fn table_routes(&self, n: &Drawing, again: u32, b: &mut Buffers) -> Answer {
        of_routes(unsafe { bench_c_table_routes(again, n.channels, n.places, n.entries.as_ptr(), n.entries.len(),
            n.homes.as_ptr(), n.homes.len(), n.ways.as_ptr(), n.ways.len(),
            b.allowed.as_mut_ptr(), b.allowed.len(), b.numbers.as_mut_ptr(), b.numbers.len(), b.work.as_mut_ptr(), b.work.len()) })
    }

    fn table_drain(&self, n: &Drawing, b: &mut Buffers) -> Answer {
        let mut stands = stands_of(&b.load);
        let given = unsafe { bench_loads_drain(n.channels, n.places, n.entries.as_ptr(), n.entries.len(),
            n.homes.as_ptr(), n.homes.len(), n.ways.as_ptr(), n.ways.len(),
            b.allowed.as_mut_ptr(), b.allowed.len(), b.numbers.as_mut_ptr(), b.numbers.len(),
            stands.as_mut_ptr(), stands.len(), b.work.as_mut_ptr(), b.work.len()) };
        tell_load(&stands, &mut b.load);
        of_drain(given)
    }

    fn table_judge_numbers(&self, n: &Drawing, b: &mut Buffers) -> Answer {
        of_judge(unsafe { bench_loads_judge_numbers(n.channels, n.places, n.entries.as_ptr(), n.entries.len(),
            n.homes.as_ptr(), n.homes.len(), n.ways.as_ptr(), n.ways.len(),
            b.allowed.as_mut_ptr(), b.allowed.len(), b.numbers.as_ptr(), b.numbers.len(), b.work.as_mut_ptr(), b.work.len()) })
    }

    fn table_judge_load(&self, n: &Drawing, b: &mut Buffers) -> Answer {
        let stands = stands_of(&b.load);
        of_judge(unsafe { bench_loads_judge_load(n.channels, n.places, n.entries.as_ptr(), n.entries.len(),
            n.homes.as_ptr(), n.homes.len(), n.ways.as_ptr(), n.ways.len(),
            b.allowed.as_mut_ptr(), b.allowed.len(), stands.as_ptr(), stands.len(), b.work.as_mut_ptr(), b.work.len()) })
    }

    fn table_put(&self, n: &Drawing, pairs: &[PairWords], b: &mut Buffers) -> Answer {
        let mut stands = stands_of(&b.load);
        let given = unsafe { bench_loads_put(n.channels, n.places, n.entries.as_ptr(), n.entries.len(),
            n.homes.as_ptr(), n.homes.len(), n.ways.as_ptr(), n.ways.len(),
            pairs.as_ptr(), pairs.len(), stands.as_mut_ptr(), stands.len()) };
        assert!(given.answered, "the proved side made no table to put packets on");
        tell_load(&stands, &mut b.load);
        Answer::Puts { accepted: given.accepted }
    }

    fn judge_file(&self, file: &[u8], b: &mut Buffers) -> Answer {
        let mut fault = [0; 2];
        let number = unsafe { tenvarog_check(file.as_ptr(), file.len(), b.allowed.as_mut_ptr(), b.allowed.len(),
            b.numbers.as_mut_ptr(), b.numbers.len(), b.places.as_mut_ptr(), b.places.len(),
            b.work.as_mut_ptr(), b.work.len(), fault.as_mut_ptr(), fault.len()) };
        match number {
            0 => Answer::Judged { blocked: false },
            1 => Answer::Judged { blocked: true },
            number => Answer::Refused { number: number as u16, line: fault[0] as usize, field: fault[1] as usize },
        }
    }
}
