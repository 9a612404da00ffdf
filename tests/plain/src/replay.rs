//! A replay: text in, what happened out.

use std::io::{self, Read, Write};

use crate::coverage::{Branch, Watch};
use crate::dump;
use crate::index::lap;
use crate::machine::{Answer, Machine, Refusal};
use crate::text::{self, Command, Lines, Next};

/// What the command line asks for.
#[derive(Clone, Default)]
pub struct Options {
    pub lifo: Vec<u64>,
    pub dump: bool,
    pub slips: bool,
}

/// Output that is handed on in large pieces.
pub struct Output<W> {
    bytes: Vec<u8>,
    to: W,
}

const PIECE: usize = 1 << 16;

impl<W: Write> Output<W> {
    fn new(to: W) -> Self {
        Output {
            bytes: Vec::with_capacity(2 * PIECE),
            to,
        }
    }

    pub fn text(&mut self, text: &str) -> &mut Self {
        self.bytes.extend_from_slice(text.as_bytes());
        self
    }

    pub fn number(&mut self, mut number: u64) -> &mut Self {
        let mut digits = [0; 20];
        let mut start = digits.len();
        loop {
            start -= 1;
            digits[start] = b'0' + (number % 10) as u8;
            number /= 10;
            if number == 0 {
                break;
            }
        }
        self.bytes.extend_from_slice(&digits[start..]);
        self
    }

    fn hand_on(&mut self, least: usize) -> io::Result<()> {
        if self.bytes.len() > least {
            self.to.write_all(&self.bytes)?;
            self.bytes.clear();
        }
        Ok(())
    }
}

struct Replay<W> {
    machine: Machine,
    line: u64,
    steps: u64,
    out: Output<W>,
}

/// Replays a whole text.
pub fn replay<R: Read, O: Write, W: Watch>(
    input: R,
    output: O,
    options: &Options,
    watch: &mut W,
) -> io::Result<()> {
    let mut lines = Lines::new(input);
    let mut out = Output::new(output);
    let counts = match lines.next()? {
        Next::Line(line) => text::queue(line),
        _ => None,
    };
    let Some([threads, blocks, ceiling]) = counts else {
        watch.reach(Branch::Bad);
        out.text("1\tbad\nend\t0\n");
        return out.hand_on(0);
    };
    out.text("queue\t").number(threads);
    out.text("\t").number(blocks);
    out.text("\t").number(ceiling).text("\n");
    let Some(machine) = Machine::setup(threads, blocks, ceiling, &options.lifo) else {
        watch.reach(Branch::RefusedBadSetup);
        out.text("1\trefused\t1\nend\t0\n");
        return out.hand_on(0);
    };
    let mut replay = Replay {
        machine,
        line: 1,
        steps: 0,
        out,
    };
    replay.commands(&mut lines, options, watch)?;
    replay.end(options, watch)
}

impl<O: Write> Replay<O> {
    fn commands<R: Read, W: Watch>(
        &mut self,
        lines: &mut Lines<R>,
        options: &Options,
        watch: &mut W,
    ) -> io::Result<()> {
        loop {
            let command = match lines.next()? {
                Next::End => return Ok(()),
                Next::Malformed => None,
                Next::Line(line) => text::command(line, options.slips),
            };
            self.line = self.line.saturating_add(1);
            let Some(command) = command else {
                watch.reach(Branch::Bad);
                self.out.number(self.line).text("\tbad\n");
                return Ok(());
            };
            self.command(&command, watch);
            if options.dump {
                dump::after(
                    &mut self.out,
                    &self.machine,
                    self.line,
                    self.steps,
                    command.thread(),
                );
            }
            self.out.hand_on(PIECE)?;
        }
    }

    #[inline]
    fn command<W: Watch>(&mut self, command: &Command, watch: &mut W) {
        let outcome = match *command {
            Command::Step(thread) => {
                let outcome = self.machine.step(thread, watch);
                self.stepped(thread, outcome)
            }
            Command::Slip(thread) => {
                let outcome = self.machine.slip(thread, watch);
                self.stepped(thread, outcome)
            }
            Command::Run(thread, budget) => self.run(thread, budget, watch),
            Command::Begin(thread, call) => self.machine.begin(thread, call),
            Command::Pop(thread) => self.pop(thread, watch),
        };
        if let Err(refusal) = outcome {
            if let Some(branch) = Branch::refused(refusal) {
                watch.reach(branch);
            }
            self.answer(command.thread(), Answer::Refused(refusal));
        }
    }

    fn stepped(
        &mut self,
        thread: u64,
        outcome: Result<Option<Answer>, Refusal>,
    ) -> Result<(), Refusal> {
        let answer = outcome?;
        self.steps = self.steps.saturating_add(1);
        if let Some(answer) = answer {
            self.answer(thread, answer);
        }
        Ok(())
    }

    fn run<W: Watch>(&mut self, thread: u64, budget: u64, watch: &mut W) -> Result<(), Refusal> {
        let ran = self.machine.run(thread, budget, watch)?;
        self.steps = self.steps.saturating_add(ran.steps);
        match ran.answer {
            Some(answer) => self.answer(thread, answer),
            None => {
                watch.reach(Branch::RunOpen);
                self.tell(thread, "open", None);
            }
        }
        Ok(())
    }

    fn pop<W: Watch>(&mut self, thread: u64, watch: &mut W) -> Result<(), Refusal> {
        match self.machine.pop(thread)? {
            Some(token) => {
                watch.reach(Branch::PopTask);
                self.tell(thread, "task", Some(token));
            }
            None => {
                watch.reach(Branch::PopNone);
                self.tell(thread, "none", None);
            }
        }
        Ok(())
    }

    fn answer(&mut self, thread: u64, answer: Answer) {
        match answer {
            Answer::Pushed => self.tell(thread, "pushed", None),
            Answer::Task(token) => self.tell(thread, "task", Some(token)),
            Answer::Moved => self.tell(thread, "moved", None),
            Answer::Empty => self.tell(thread, "empty", None),
            Answer::Retry => self.tell(thread, "retry", None),
            Answer::Length(length) => self.tell(thread, "len", Some(length)),
            Answer::Yes => self.tell(thread, "yes", None),
            Answer::No => self.tell(thread, "no", None),
            Answer::Refused(refusal) => self.tell(thread, "refused", Some(refusal as u64)),
        }
    }

    fn tell(&mut self, thread: u64, word: &str, number: Option<u64>) {
        self.out.number(self.line).text("\t");
        self.out.number(thread).text("\t").text(word);
        if let Some(number) = number {
            self.out.text("\t").number(number);
        }
        self.out.text("\n");
    }

    fn end<W: Watch>(mut self, options: &Options, watch: &mut W) -> io::Result<()> {
        self.out.text("end\t").number(self.steps).text("\n");
        if options.dump {
            dump::memory(&mut self.out, &self.machine);
        }
        let laps = lap(self.machine.tail.index);
        let places = [
            (laps >= 10, Branch::LapsTen),
            (laps >= 100, Branch::LapsHundred),
            (laps >= 300, Branch::LapsThreeHundred),
            (self.steps == u64::MAX, Branch::StepsSaturated),
        ];
        for (_, branch) in places.iter().filter(|(reached, _)| *reached) {
            watch.reach(*branch);
        }
        self.out.hand_on(0)
    }
}
