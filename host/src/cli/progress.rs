//! What is being done, said on standard error while it lasts.

use std::sync::mpsc::{self, Receiver, RecvTimeoutError};
use std::thread;
use std::time::{Duration, Instant};

use super::complain;

/// Work that takes longer than this is told, and then as often as the next says.
const PATIENCE: Duration = Duration::from_secs(2);
const INTERVAL: Duration = Duration::from_secs(10);

/// Does some work, and tells those who wait for it.
pub fn telling<T>(what: &str, work: impl FnOnce() -> T) -> T {
    let (done, is_done) = mpsc::channel();
    thread::scope(|scope| {
        scope.spawn(|| tell(what, is_done));
        let result = work();
        drop::<mpsc::Sender<()>>(done);
        result
    })
}

fn tell(what: &str, is_done: Receiver<()>) {
    let start = Instant::now();
    let mut wait = PATIENCE;
    while is_done.recv_timeout(wait) == Err(RecvTimeoutError::Timeout) {
        complain(&format!("{what}; {} s so far\n", start.elapsed().as_secs()));
        wait = INTERVAL;
    }
}
