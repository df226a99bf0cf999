//! The calls of the archives, as the headers declare them: the four calls of the
//! throttle in both widths and the change-over (include/throttle.h), block 0 of the
//! log writer (include/throttle_log.h), the planner (include/throttle_plan.h), the fit of
//! two probes (include/throttle_probes.h) and the cut-down log
//! (include/throttle_cut_down.h).

use crate::call::{Call, Kind};
use crate::memory::{Counters, Guarded, Memory};
use second::{Limits, NEW};

/// Declares the four calls of the width whose counters have this type.
macro_rules! declare {
    ($counter:ty, $setup:ident, $request:ident, $done:ident, $index:ident) => {
        declare!(one $setup, $counter,);
        declare!(
            one $request, $counter,
            tick: u64, bank: u64, thread: u64, row: u16, out: *mut u64
        );
        declare!(one $done, $counter, tick: u64, bank: u64, thread: u64);
        declare!(one $index, $counter, tick: u64, bank: u64, thread: u64, out: *mut u64);
    };
    (one $name:ident, $counter:ty, $($more:ident: $type:ty),*) => {
        extern "C" {
            fn $name(
                setting: *const u64,
                seeds: *const u16,
                seeds_len: usize,
                head: *mut u64,
                counters: *mut $counter,
                counters_len: usize,
                ticks: *mut u64,
                ticks_len: usize,
                rows: *mut u32,
                rows_len: usize,
                threads: *mut u32,
                threads_len: usize,
                $($more: $type),*
            ) -> u32;
        }
    };
}

declare!(
    u16,
    throttle_setup,
    throttle_request,
    throttle_done,
    throttle_index
);
declare!(
    u32,
    throttle_wide_setup,
    throttle_wide_request,
    throttle_wide_done,
    throttle_wide_index
);

extern "C" {
    fn throttle_change_over(
        setting: *const u64,
        seeds: *const u16,
        seeds_len: usize,
        head: *const u64,
        old_counters: *const u16,
        old_len: usize,
        counters: *mut u32,
        counters_len: usize,
        ticks: *const u64,
        ticks_len: usize,
        rows: *const u32,
        rows_len: usize,
        threads: *const u32,
        threads_len: usize,
    ) -> u32;

    fn throttle_log_start(
        setting: *const u64,
        seeds: *const u16,
        seeds_len: usize,
        block: *mut u8,
    ) -> u32;

    fn throttle_delays(setting: *const u64, out: *mut u64) -> u32;

    fn throttle_wide_delays(setting: *const u64, out: *mut u64) -> u32;

    fn throttle_span_bound(setting: *const u64, x: u64, out: *mut u64) -> u32;

    fn throttle_fit_probes(
        first_ticks: *const u64,
        first_ticks_len: usize,
        first_rows: *const u32,
        first_rows_len: usize,
        first_count: u64,
        second_ticks: *const u64,
        second_ticks_len: usize,
        second_rows: *const u32,
        second_rows_len: usize,
        second_count: u64,
        jitter: u64,
        out: *mut u64,
    ) -> u32;

    fn throttle_cut_down(log: *const u8, log_len: usize, out: *mut u64) -> u32;
}

/// Calls a function of the library on the memory with these counters, with further
/// arguments.
macro_rules! lend {
    ($function:ident, $memory:ident, $counters:ident $(, $more:expr)*) => {
        // The pointers are those of live, separate buffers of these lengths;
        // out has three cells.
        unsafe {
            $function(
                $memory.setting.cells().as_ptr(),
                $memory.seeds.cells().as_ptr(),
                $memory.seeds.cells().len(),
                $memory.head.cells_mut().as_mut_ptr(),
                $counters.cells_mut().as_mut_ptr(),
                $counters.cells().len(),
                $memory.ticks.cells_mut().as_mut_ptr(),
                $memory.ticks.cells().len(),
                $memory.rows.cells_mut().as_mut_ptr(),
                $memory.rows.cells().len(),
                $memory.threads.cells_mut().as_mut_ptr(),
                $memory.threads.cells().len(),
                $($more),*
            )
        }
    };
}

/// Makes one of the four calls of a width, whose names are given, on these counters.
macro_rules! make {
    (
        $call:ident, $memory:ident, $counters:ident;
        $setup:ident, $request:ident, $done:ident, $index:ident
    ) => {{
        let Call {
            kind,
            tick,
            bank,
            thread,
            row,
        } = *$call;
        let out = $memory.out.cells_mut().as_mut_ptr();
        match kind {
            Kind::Setup => lend!($setup, $memory, $counters),
            Kind::Request => lend!($request, $memory, $counters, tick, bank, thread, row, out),
            Kind::Done => lend!($done, $memory, $counters, tick, bank, thread),
            Kind::Index => lend!($index, $memory, $counters, tick, bank, thread, out),
        }
    }};
}

/// Makes a call of the library, in the width of the counters, and returns its
/// number.
pub fn call(memory: &mut Memory, call: &Call) -> u32 {
    match &mut memory.counters {
        Counters::Old(cells) => make!(
            call, memory, cells;
            throttle_setup, throttle_request, throttle_done, throttle_index
        ),
        Counters::New(cells) => make!(
            call, memory, cells;
            throttle_wide_setup, throttle_wide_request, throttle_wide_done, throttle_wide_index
        ),
    }
}

/// What a change-over reads, each buffer as far as it is given.
pub struct Given<'a> {
    pub setting: &'a [u64],
    pub seeds: &'a [u16],
    pub head: &'a [u64],
    pub counters: &'a [u16],
    pub ticks: &'a [u64],
    pub rows: &'a [u32],
    pub threads: &'a [u32],
}

impl<'a> Given<'a> {
    /// All of memory of the old width.
    pub fn of(memory: &'a Memory) -> Self {
        let Counters::Old(old) = &memory.counters else {
            panic!("the memory is not of the old width");
        };
        Given {
            setting: memory.setting.cells(),
            seeds: memory.seeds.cells(),
            head: memory.head.cells(),
            counters: old.cells(),
            ticks: memory.ticks.cells(),
            rows: memory.rows.cells(),
            threads: memory.threads.cells(),
        }
    }
}

/// Makes the change-over to new counters.
pub fn change_over(given: &Given, counters: &mut [u32]) -> u32 {
    assert_eq!((given.setting.len(), given.head.len()), (10, 22));
    // The pointers are those of live, separate buffers of these lengths.
    unsafe {
        throttle_change_over(
            given.setting.as_ptr(),
            given.seeds.as_ptr(),
            given.seeds.len(),
            given.head.as_ptr(),
            given.counters.as_ptr(),
            given.counters.len(),
            counters.as_mut_ptr(),
            counters.len(),
            given.ticks.as_ptr(),
            given.ticks.len(),
            given.rows.as_ptr(),
            given.rows.len(),
            given.threads.as_ptr(),
            given.threads.len(),
        )
    }
}

/// Writes block 0 of a log; the setting has ten words and the block 512 bytes.
pub fn log_start(setting: &Guarded<u64>, seeds: &Guarded<u16>, block: &mut Guarded<u8>) -> u32 {
    assert_eq!((setting.cells().len(), block.cells().len()), (10, 512));
    // The pointers are those of live, separate buffers of these lengths.
    unsafe {
        throttle_log_start(
            setting.cells().as_ptr(),
            seeds.cells().as_ptr(),
            seeds.cells().len(),
            block.cells_mut().as_mut_ptr(),
        )
    }
}

/// The delays of a setting of ten words in a width; out has two.
pub fn delays(limits: &Limits, setting: &Guarded<u64>, out: &mut Guarded<u64>) -> u32 {
    assert_eq!((setting.cells().len(), out.cells().len()), (10, 2));
    let (setting, out) = (setting.cells().as_ptr(), out.cells_mut().as_mut_ptr());
    // The pointers are those of live, separate buffers of these lengths.
    unsafe {
        if *limits == NEW {
            throttle_wide_delays(setting, out)
        } else {
            throttle_delays(setting, out)
        }
    }
}

/// The bound of a span for a setting of ten words; out has one.
pub fn span_bound(setting: &Guarded<u64>, x: u64, out: &mut Guarded<u64>) -> u32 {
    assert_eq!((setting.cells().len(), out.cells().len()), (10, 1));
    // The pointers are those of live, separate buffers of these lengths.
    unsafe { throttle_span_bound(setting.cells().as_ptr(), x, out.cells_mut().as_mut_ptr()) }
}

/// What a probe recorded, as it is lent: ticks, rows and the count of records.
pub type Recorded = (Guarded<u64>, Guarded<u32>, u64);

/// Fits two lists; out has two words.
pub fn fit_probes([first, second]: &[Recorded; 2], jitter: u64, out: &mut Guarded<u64>) -> u32 {
    assert_eq!(out.cells().len(), 2);
    // The pointers are those of live, separate buffers of these lengths.
    unsafe {
        throttle_fit_probes(
            first.0.cells().as_ptr(),
            first.0.cells().len(),
            first.1.cells().as_ptr(),
            first.1.cells().len(),
            first.2,
            second.0.cells().as_ptr(),
            second.0.cells().len(),
            second.1.cells().as_ptr(),
            second.1.cells().len(),
            second.2,
            jitter,
            out.cells_mut().as_mut_ptr(),
        )
    }
}

/// Cuts a log down; out has one word.
pub fn cut_down(log: &Guarded<u8>, out: &mut Guarded<u64>) -> u32 {
    assert_eq!(out.cells().len(), 1);
    let (log, out) = (log.cells(), out.cells_mut().as_mut_ptr());
    // The pointers are those of live, separate buffers of these lengths.
    unsafe { throttle_cut_down(log.as_ptr(), log.len(), out) }
}
