//! Says on standard error what is being done, once it takes longer than a second.

use std::io::{IsTerminal, Write};
use std::sync::mpsc::{channel, RecvTimeoutError, Sender};
use std::thread::{spawn, JoinHandle};
use std::time::{Duration, Instant};

/// Between two lines, where standard error is no terminal.
const SELDOM: u64 = 10;

/// Work under way; dropping it ends the lines.
pub struct Progress {
    ended: Option<Sender<()>>,
    thread: Option<JoinHandle<()>>,
}

impl Progress {
    pub fn of(what: String) -> Progress {
        let (ended, wait) = channel();
        let thread = spawn(move || {
            let (start, terminal) = (Instant::now(), std::io::stderr().is_terminal());
            let mut said = false;
            while wait.recv_timeout(Duration::from_secs(1)) == Err(RecvTimeoutError::Timeout) {
                let seconds = start.elapsed().as_secs();
                if terminal {
                    eprint!("\rclover: {what}, {seconds} s");
                } else if !said || seconds % SELDOM == 0 {
                    eprintln!("clover: {what}, {seconds} s");
                }
                said = true;
            }
            if said && terminal {
                eprintln!();
            }
            // Nothing is lost where standard error is closed.
            let _ = std::io::stderr().flush();
        });
        Progress { ended: Some(ended), thread: Some(thread) }
    }
}

impl Drop for Progress {
    fn drop(&mut self) {
        drop(self.ended.take());
        if let Some(thread) = self.thread.take() {
            // The thread only prints.
            let _ = thread.join();
        }
    }
}
