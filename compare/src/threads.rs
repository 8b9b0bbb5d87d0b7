//! Work on all cores at once.

use std::sync::atomic::{AtomicUsize, Ordering};
use std::sync::Mutex;

/// Does so many tasks, on each core one at a time, the first of them first, and gives what they gave in their order.
pub fn each<T: Send>(number: usize, task: impl Fn(usize) -> T + Sync) -> Vec<T> {
    let next = AtomicUsize::new(0);
    let done: Vec<Mutex<Option<T>>> = (0..number).map(|_| Mutex::new(None)).collect();
    let work = || loop {
        let at = next.fetch_add(1, Ordering::Relaxed);
        let Some(place) = done.get(at) else { return };
        let given = task(at);
        *place.lock().expect("no task panics while it holds this") = Some(given);
    };
    let cores = std::thread::available_parallelism().map_or(1, |cores| cores.get());
    std::thread::scope(|scope| {
        let others: Vec<_> = (1..cores.min(number)).map(|_| scope.spawn(work)).collect();
        work();
        others.into_iter().for_each(|other| other.join().expect("a task panicked"));
    });
    let given = |place: Mutex<Option<T>>| place.into_inner().ok().flatten().expect("every task was done");
    done.into_iter().map(given).collect()
}
