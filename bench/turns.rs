// A look at a state behind a ticket lock of the same shape as the hub's, and behind a mutex of the standard library: the measure
// of a turn. Words: `ticket` or `mutex`, the number of threads, and of looks of each. Prints nanoseconds a look.

use std::cell::UnsafeCell;
use std::env;
use std::hint::{black_box, spin_loop};
use std::sync::Mutex;
use std::sync::atomic::{AtomicU64, Ordering};
use std::thread;
use std::time::Instant;

// After so many looks at the lock a waiter gives its processor away before each further one.
const LOOKS: u32 = 200;

// A node of the core: what is pending, taken, stored and waiting there.
struct Node {
    pending: Vec<u64>,
    opened: Vec<u64>,
    stored: u64,
    waiting: u64,
}

struct State {
    nodes: Vec<Node>,
    closed: Vec<u32>,
    streams: u32,
    undrained: Vec<u64>,
    halted: bool,
}

// What a look tells.
struct Look {
    pending: u64,
    taken: u64,
    ended: u32,
    streams: u32,
    stored: u64,
    waiting: u64,
    outputs: u64,
    halted: bool,
}

impl State {
    fn new() -> State {
        let node = Node { pending: Vec::new(), opened: Vec::new(), stored: 0, waiting: 0 };
        State { nodes: vec![node], closed: Vec::new(), streams: 1, undrained: Vec::new(), halted: false }
    }

    fn look(&self) -> Look {
        let sum = |of: fn(&Node) -> u64| self.nodes.iter().map(of).sum::<u64>();
        let pending = sum(|node| node.pending.len() as u64);
        Look {
            pending,
            taken: sum(|node| node.opened.len() as u64) - pending,
            ended: (0..self.streams).filter(|stream| self.closed.contains(stream)).count() as u32,
            streams: self.streams,
            stored: sum(|node| node.stored),
            waiting: sum(|node| node.waiting),
            outputs: self.undrained.len() as u64,
            halted: self.halted,
        }
    }
}

struct Tickets {
    next: AtomicU64,
    serving: AtomicU64,
    state: UnsafeCell<State>,
}

// The state is touched by the thread alone whose ticket is served.
unsafe impl Sync for Tickets {}

impl Tickets {
    fn new() -> Tickets {
        Tickets { next: AtomicU64::new(0), serving: AtomicU64::new(0), state: UnsafeCell::new(State::new()) }
    }

    fn wait(until: impl Fn() -> bool) {
        let mut looks = 0;
        while !until() {
            if looks < LOOKS {
                looks += 1;
                spin_loop();
            } else {
                thread::yield_now();
            }
        }
    }

    fn look(&self) -> Look {
        Tickets::wait(|| self.next.load(Ordering::SeqCst) == self.serving.load(Ordering::SeqCst));
        let ticket = self.next.fetch_add(1, Ordering::SeqCst);
        Tickets::wait(|| self.serving.load(Ordering::SeqCst) == ticket);
        let look = unsafe { &*self.state.get() }.look();
        self.serving.fetch_add(1, Ordering::SeqCst);
        look
    }
}

// Nanoseconds a look, where so many threads look so often.
fn measure(threads: u64, looks: u64, look: impl Fn() -> Look + Sync) -> u128 {
    let begin = Instant::now();
    thread::scope(|scope| {
        for _ in 0..threads {
            scope.spawn(|| {
                for _ in 0..looks {
                    let told = look();
                    black_box((told.pending, told.taken, told.ended, told.streams, told.stored, told.waiting, told.outputs, told.halted));
                }
            });
        }
    });
    begin.elapsed().as_nanos() / u128::from((threads * looks).max(1))
}

fn main() {
    let words: Vec<String> = env::args().skip(1).collect();
    let number = |at: usize| words[at].parse().expect("a number");
    let told = match words[0].as_str() {
        "ticket" => {
            let tickets = Tickets::new();
            measure(number(1), number(2), || tickets.look())
        }
        "mutex" => {
            let mutex = Mutex::new(State::new());
            measure(number(1), number(2), || mutex.lock().expect("no thread panics").look())
        }
        other => panic!("{other} is no lock"),
    };
    println!("{told}");
}
