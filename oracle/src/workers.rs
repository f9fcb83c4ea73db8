//! Work spread over the machine's processors.

/// Sizing calls itself once for each nested pair of parentheses, so give it room.
const STACK: usize = 1 << 28;

/// What `work` gives in a thread with room for deep nesting, or None where it panics.
pub fn with_room<T: Send + 'static>(work: impl FnOnce() -> T + Send + 'static) -> Option<T> {
    std::thread::Builder::new().stack_size(STACK).spawn(work).expect("a thread").join().ok()
}

/// `part(worker, workers)` for each worker; it takes every `workers`-th item from the one of its own number on.
pub fn parts<T: Send>(part: impl Fn(usize, usize) -> T + Sync) -> Vec<T> {
    let workers = std::thread::available_parallelism().map_or(1, usize::from);
    std::thread::scope(|scope| {
        let part = &part;
        let start = |worker| {
            let thread = std::thread::Builder::new().stack_size(STACK);
            thread.spawn_scoped(scope, move || part(worker, workers)).expect("a thread")
        };
        let threads: Vec<_> = (0..workers).map(start).collect();
        threads.into_iter().map(|thread| thread.join().expect("a worker ends")).collect()
    })
}
