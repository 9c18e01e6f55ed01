//! Work on several threads.

/// Runs `work` on so many threads, this one among them.
pub fn spawn(threads: usize, work: impl Fn() + Sync) {
    std::thread::scope(|s| {
        for _ in 1..threads {
            s.spawn(&work);
        }
        work()
    });
}

/// Runs `f(i)` for i in 0..n on up to `threads` threads.
pub fn on_threads(threads: usize, n: usize, f: impl Fn(usize) + Sync) {
    let t = threads.min(n);
    if t <= 1 {
        for i in 0..n {
            f(i)
        }
        return;
    }
    let next = std::sync::atomic::AtomicUsize::new(0);
    let run = || loop {
        let i = next.fetch_add(1, std::sync::atomic::Ordering::Relaxed);
        if i >= n {
            break;
        }
        f(i)
    };
    spawn(t, run);
}
