//! Timing: the best of several rounds.
use std::time::Instant;

extern "C" {
    fn mallopt(param: i32, value: i32) -> i32;
}

/// Keeps freed memory in the process, so that the rounds after the first meet no new pages: what is
/// measured is the code and not the kernel. With BENCH_FRESH set the allocator stays as it is.
pub fn keep_memory() {
    if std::env::var_os("BENCH_FRESH").is_some() {
        return;
    }
    const M_TRIM_THRESHOLD: i32 = -1;
    const M_MMAP_MAX: i32 = -4;
    // Safety: glibc's own call, before anything else runs
    let done = unsafe { mallopt(M_MMAP_MAX, 0) & mallopt(M_TRIM_THRESHOLD, i32::MAX) };
    assert_eq!(done, 1, "mallopt");
}

/// How many rounds: BENCH_ROUNDS, else 9.
pub fn rounds() -> usize {
    std::env::var("BENCH_ROUNDS")
        .ok()
        .and_then(|x| x.parse().ok())
        .unwrap_or(9)
}

/// How long one measurement lasts, in nanoseconds: BENCH_SLICE milliseconds, else 200. On a busy machine many short
/// ones (BENCH_SLICE=2 BENCH_ROUNDS=300) find some that nothing interrupts.
pub fn slice() -> f64 {
    1e6 * std::env::var("BENCH_SLICE")
        .ok()
        .and_then(|x| x.parse().ok())
        .unwrap_or(200.0)
}

/// The best time of one call, in nanoseconds; a short call is repeated up to about 20 ms within a
/// round. The first call is not counted.
pub fn best(rounds: usize, op: &mut dyn FnMut(u64) -> u64) -> f64 {
    let mut number = 0u64;
    let mut call = |times: u64| {
        let start = Instant::now();
        for _ in 0..times {
            std::hint::black_box(op(std::hint::black_box(number)));
            number += 1;
        }
        start.elapsed().as_nanos() as f64
    };
    let first = call(1).max(1.0);
    let times = (20e6 / first).clamp(1.0, 100_000.0) as u64;
    let mut best = f64::INFINITY;
    for _ in 0..rounds {
        best = best.min(call(times) / times as f64);
    }
    best
}
