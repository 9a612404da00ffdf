//! The gate before each shared access. A call on a held thread stops at it until it is let through;
//! everyone else (setting up, looking) passes.

use ::core::cell::Cell;
use ::core::panic::Location;
use rust::boxed::Box;
use rust::collections::BTreeSet;
use rust::panic::resume_unwind;
use rust::sync::{Mutex, OnceLock};

use crate::hall::{self, Order, Report};
use crate::line::{Kind, Line, Seen};
use crate::peek::{self, Place};
use crate::{pool, BLOCK_CAP, LAP, SHIFT};

/// A shared access of the Injector, with the address it goes to.
#[derive(Clone, Copy, Debug)]
pub enum Access {
    Load(usize),
    Store(usize),
    Compare(usize),
    Or(usize, usize),
    Read(usize),
    Write(usize),
    Take,
    GiveBack(usize),
}

/// Why a call was unwound; the Rust itself knows none of these.
#[derive(Clone, Copy, PartialEq, Eq, Debug)]
pub enum Unwound {
    NoBlock,
    Spent,
    /// The replay is over and the call is still open.
    Abandoned,
}

/// Where the call of this thread stands.
struct Standing {
    /// None outside of a held call: the gate stands open.
    kind: Cell<Option<Kind>>,
    /// The line stopped at or made last.
    line: Cell<Option<Line>>,
    /// Accesses still allowed, and those made since the last order.
    budget: Cell<u64>,
    made: Cell<u64>,
    /// The line and count at which the call last found that it must wait.
    waited: Cell<Option<(Line, u64)>>,
    slip: Cell<bool>,
    /// The index t or h, and the number of the block loaded with it.
    index: Cell<u64>,
    block: Cell<usize>,
    ceiling: Cell<u64>,
}

rust::thread_local! {
    static HERE: Standing = const {
        Standing {
            kind: Cell::new(None),
            line: Cell::new(None),
            budget: Cell::new(0),
            made: Cell::new(0),
            waited: Cell::new(None),
            slip: Cell::new(false),
            index: Cell::new(0),
            block: Cell::new(0),
            ceiling: Cell::new(0),
        }
    };
}

/// A call begins on this thread; it will stop before its first access.
pub fn close(kind: Kind, ceiling: u64) {
    HERE.with(|here| {
        here.kind.set(Some(kind));
        here.line.set(None);
        here.budget.set(0);
        here.made.set(0);
        here.waited.set(None);
        here.slip.set(false);
        here.ceiling.set(ceiling);
    });
}

/// The call has ended; the answer is the number of accesses made since the last order.
pub fn open() -> u64 {
    HERE.with(|here| {
        here.kind.set(None);
        here.made.get()
    })
}

/// Which lines of the published file were met as which lines of the table, if that is asked for.
static SOURCES: OnceLock<Mutex<BTreeSet<(Line, u32)>>> = OnceLock::new();

/// From now on sources are noted.
pub fn note_sources() {
    SOURCES.get_or_init(Mutex::default);
}

pub fn sources() -> BTreeSet<(Line, u32)> {
    let noted = SOURCES.get().map(|sources| sources.lock().unwrap().clone());
    noted.unwrap_or_default()
}

/// Stops before an access until it is let through.
#[track_caller]
pub fn stop(access: Access) {
    let source = Location::caller().line();
    HERE.with(|here| {
        let Some(kind) = here.kind.get() else { return };
        let line = here.name(kind, access);
        here.line.set(Some(line));
        if let (Some(sources), false) = (SOURCES.get(), matches!(access, Access::GiveBack(_))) {
            sources.lock().unwrap().insert((line, source));
        }
        while here.budget.get() == 0 {
            let order = hall::report(Report::Stands(line), here.made.get());
            here.made.set(0);
            here.waited.set(None);
            here.slip.set(matches!(order, Order::Slip));
            match order {
                Order::Steps(budget) => here.budget.set(budget),
                Order::Slip => here.budget.set(1),
                Order::Abandon => return here.abandon(access),
                other => panic!("a call is open, so there can be no {other:?}"),
            }
        }
        here.budget.set(here.budget.get() - 1);
        here.made.set(here.made.get() + 1);
    })
}

impl Standing {
    /// The line of the table; an access that is none, or that touches a freed block, ends it all.
    fn name(&self, kind: Kind, access: Access) -> Line {
        let place = match access {
            Access::Load(address) | Access::Store(address) | Access::Compare(address) => {
                peek::place(address)
            }
            Access::Or(address, _) | Access::Read(address) | Access::Write(address) => {
                peek::place(address)
            }
            Access::Take => Place::Elsewhere,
            Access::GiveBack(address) => {
                Place::Block(pool::number(address).expect("gated for the pool only"))
            }
        };
        if let Place::Next(block) | Place::State(block, _) | Place::Task(block, _) = place {
            assert!(!pool::is_free(block), "{access:?}: block {block} is free");
        }
        let seen = Seen {
            offset: offset(self.index.get()),
            block: self.block.get(),
            last: self.line.get(),
        };
        Line::of(kind, access, place, seen)
            .unwrap_or_else(|| panic!("{kind:?}: {access:?} at {place:?} is no line of the table"))
    }

    /// Nobody will step this call again. A block's drop can't be left by unwinding; nothing waits
    /// after it, so it may run to its end.
    fn abandon(&self, access: Access) {
        self.kind.set(None);
        if !matches!(access, Access::GiveBack(_)) {
            unwind(Unwound::Abandoned);
        }
    }
}

/// The value that the access let through has loaded, or that its compare has seen.
pub fn saw(value: u64) {
    HERE.with(|here| {
        if here.kind.get().is_none() {
            return;
        }
        match here.line.get() {
            Some(Line::P1 | Line::P4 | Line::S1) => here.index.set(value),
            Some(Line::S2) => {
                let block = pool::number(value as usize);
                here.block
                    .set(block.expect("the head's block is of the pool"));
            }
            // The Rust has no ceiling. Nothing was changed yet, so the push can be unwound, and a
            // block that it holds is dropped on the way: that is P10.
            Some(Line::P2) if is_spent(here.index.get(), here.ceiling.get()) => {
                unwind(Unwound::Spent)
            }
            _ => {}
        }
    })
}

fn is_spent(index: u64, ceiling: u64) -> bool {
    offset(index) != BLOCK_CAP && (index >> SHIFT) / LAP >= ceiling
}

fn offset(index: u64) -> usize {
    ((index >> SHIFT) % LAP) as usize
}

/// Whether the access let through was ordered as a slip; only a compare asks.
pub fn slips() -> bool {
    HERE.with(|here| here.kind.get().is_some() && here.slip.get())
}

/// The Rust found that another thread must move first. Found again at the same line under the same
/// order, the call can only go round: it made nothing but loads in between and nobody else moves.
/// So the whole turns that are left are counted and not made.
pub fn waiting() {
    HERE.with(|here| {
        let (Some(_), Some(line)) = (here.kind.get(), here.line.get()) else {
            return;
        };
        let made = here.made.get();
        if let Some((same, before)) = here.waited.replace(Some((line, made))) {
            if same == line {
                let turn = made - before;
                let whole = here.budget.get() - here.budget.get() % turn;
                here.budget.set(here.budget.get() - whole);
                here.made.set(made + whole);
                here.waited.set(Some((line, made + whole)));
            }
        }
    })
}

/// The pool was empty at P3; the Rust's own error path comes here.
pub fn no_block() -> ! {
    unwind(Unwound::NoBlock)
}

fn unwind(why: Unwound) -> ! {
    resume_unwind(Box::new(why))
}
