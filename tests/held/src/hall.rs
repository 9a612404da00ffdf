//! The threads: one for each thread of the queue, and the driver. One of them moves at a time.

use ::core::cell::{Cell, RefCell};
use ::core::mem::ManuallyDrop;
use ::core::sync::atomic::{AtomicUsize, Ordering};
use rust::panic::{catch_unwind, AssertUnwindSafe};
use rust::sync::{Arc, Mutex, OnceLock};
use rust::thread::{self, JoinHandle, Thread};
use rust::vec::Vec;

use crate::gate::{self, Unwound};
use crate::line::{Kind, Line};
use crate::{peek, pool, Injector, Steal, Stealer, Worker};

pub const MOST_THREADS: usize = 8;

/// What a thread can be asked to call.
#[derive(Clone, Copy, Debug)]
pub enum Call {
    Push(u64),
    Steal,
    Batch(usize),
    Take(usize),
    Length,
    Empty,
}

/// What a call answers.
#[derive(Clone, Copy, PartialEq, Eq, Debug)]
pub enum Answer {
    Pushed,
    Task(u64),
    Moved,
    Empty,
    Retry,
    Length(u64),
    IsEmpty(bool),
    Unwound(Unwound),
}

#[derive(Debug)]
pub enum Order {
    /// A new queue, with this lap ceiling and a ring of this flavour.
    Join(Arc<Queue>, bool),
    Begin(Call),
    /// Let the open call make so many accesses.
    Steps(u64),
    /// Let it make one; a compare fails.
    Slip,
    Abandon,
    /// The owner's pop; no call is open.
    Pop,
    /// The tokens of the ring; no call is open.
    Ring,
    Leave,
}

/// What a thread tells when it hands the turn back.
#[derive(Debug)]
pub enum Report {
    Stands(Line),
    Ended(Answer),
    Popped(Option<u64>),
    Ring(Vec<u64>),
    Done,
}

/// A report with the accesses made under the order, and how many tokens the ring has.
pub struct Told {
    pub report: Report,
    pub made: u64,
    pub ring: usize,
}

/// The queue of one replay. Its memory is the pool's; the Injector is never dropped, because a
/// replay may end with calls open, and the Rust drops a queue that nobody uses any more.
pub struct Queue {
    pub injector: ManuallyDrop<Injector<u64>>,
    ceiling: u64,
}

impl Queue {
    /// Setup takes block 0 and puts head and tail on it.
    pub fn new(blocks: usize, ceiling: u64) -> Arc<Queue> {
        pool::open(blocks);
        let queue = Arc::new(Queue {
            injector: ManuallyDrop::new(Injector::new()),
            ceiling,
        });
        peek::look_at(&queue.injector);
        queue
    }
}

impl ::core::fmt::Debug for Queue {
    fn fmt(&self, f: &mut ::core::fmt::Formatter<'_>) -> ::core::fmt::Result {
        f.pad("Queue { .. }")
    }
}

/// 0 is the driver; thread i of the queue is i + 1.
static TURN: AtomicUsize = AtomicUsize::new(0);
static SEATS: [OnceLock<Thread>; MOST_THREADS + 1] = [const { OnceLock::new() }; MOST_THREADS + 1];
static ORDER: Mutex<Option<Order>> = Mutex::new(None);
static TOLD: Mutex<Option<Told>> = Mutex::new(None);

rust::thread_local! {
    static SEAT: Cell<usize> = const { Cell::new(0) };
    /// Another handle to this thread's ring, to count its tokens while a call is open.
    static RING: RefCell<Option<Stealer<u64>>> = const { RefCell::new(None) };
}

fn hand_to(seat: usize) {
    TURN.store(seat, Ordering::Release);
    SEATS[seat].get().expect("the seat is taken").unpark();
}

fn await_turn(seat: usize) {
    while TURN.load(Ordering::Acquire) != seat {
        thread::park();
    }
}

/// Tells the driver and waits for its next order.
pub fn report(report: Report, made: u64) -> Order {
    let seat = SEAT.get();
    let ring = RING.with_borrow(|ring| ring.as_ref().map_or(0, Stealer::len));
    *TOLD.lock().unwrap() = Some(Told { report, made, ring });
    hand_to(0);
    await_turn(seat);
    take_order()
}

fn take_order() -> Order {
    let order = ORDER.lock().unwrap().take();
    order.expect("a turn comes with an order")
}

/// The driver's side: as many threads as a queue can have.
pub struct Hall {
    threads: Vec<JoinHandle<()>>,
}

impl Hall {
    /// There can be one only: the turn is one for the whole process.
    pub fn open() -> Hall {
        SEATS[0]
            .set(thread::current())
            .expect("there is one hall only");
        let threads = (1..=MOST_THREADS)
            .map(|seat| {
                let handle = thread::spawn(move || work(seat));
                let free = SEATS[seat].set(handle.thread().clone());
                free.expect("each seat is taken once");
                handle
            })
            .collect();
        Hall { threads }
    }

    /// Gives the turn to a thread and waits until it comes back.
    pub fn ask(&self, thread: usize, order: Order) -> Told {
        *ORDER.lock().unwrap() = Some(order);
        hand_to(thread + 1);
        await_turn(0);
        let told = TOLD.lock().unwrap().take();
        told.expect("the turn comes back with a report")
    }

    pub fn close(self) {
        for (seat, handle) in (1..).zip(self.threads) {
            *ORDER.lock().unwrap() = Some(Order::Leave);
            hand_to(seat);
            handle.join().expect("a thread leaves when it is told to");
        }
    }
}

/// A thread of the queue, from one order to the next.
fn work(seat: usize) {
    SEAT.set(seat);
    await_turn(seat);
    let mut order = take_order();
    let mut joined: Option<(Arc<Queue>, Worker<u64>)> = None;
    loop {
        let (told, made) = match (order, &joined) {
            (Order::Leave, _) => return,
            (Order::Join(queue, lifo), _) => {
                let ring = new_ring(lifo);
                RING.set(Some(ring.stealer()));
                joined = Some((queue, ring));
                (Report::Done, 0)
            }
            (Order::Begin(call), Some((queue, ring))) => {
                let answer = held(queue, ring, call);
                (Report::Ended(answer), gate::open())
            }
            (Order::Pop, Some((_, ring))) => (Report::Popped(ring.pop()), 0),
            (Order::Ring, Some((_, ring))) => (Report::Ring(peek::ring(ring)), 0),
            (order, _) => panic!("no call is open, so there can be no {order:?}"),
        };
        order = report(told, made);
    }
}

fn new_ring(lifo: bool) -> Worker<u64> {
    if lifo {
        Worker::new_lifo()
    } else {
        Worker::new_fifo()
    }
}

/// The Rust's own call behind the gate.
fn held(queue: &Queue, ring: &Worker<u64>, call: Call) -> Answer {
    gate::close(kind(call), queue.ceiling);
    let outcome = catch_unwind(AssertUnwindSafe(|| make(&queue.injector, ring, call)));
    outcome.unwrap_or_else(|payload| match payload.downcast_ref::<Unwound>() {
        Some(why) => Answer::Unwound(*why),
        // A broken expectation: its message is out already, and no comparison may go on.
        None => rust::process::abort(),
    })
}

fn kind(call: Call) -> Kind {
    match call {
        Call::Push(_) => Kind::Push,
        Call::Steal | Call::Batch(_) | Call::Take(_) => Kind::Steal,
        Call::Length => Kind::Length,
        Call::Empty => Kind::Empty,
    }
}

fn make(injector: &Injector<u64>, ring: &Worker<u64>, call: Call) -> Answer {
    match call {
        Call::Push(token) => {
            injector.push(token);
            Answer::Pushed
        }
        Call::Steal => stolen(injector.steal(), Answer::Task),
        Call::Batch(limit) => stolen(injector.steal_batch_with_limit(ring, limit), |()| {
            Answer::Moved
        }),
        Call::Take(limit) => stolen(
            injector.steal_batch_with_limit_and_pop(ring, limit),
            Answer::Task,
        ),
        Call::Length => Answer::Length(injector.len() as u64),
        Call::Empty => Answer::IsEmpty(injector.is_empty()),
    }
}

fn stolen<T>(outcome: Steal<T>, success: impl FnOnce(T) -> Answer) -> Answer {
    match outcome {
        Steal::Success(value) => success(value),
        Steal::Empty => Answer::Empty,
        Steal::Retry => Answer::Retry,
    }
}
