//! gussetraft-level: field files by the thousand, on all cores: one file in, one file out. See `gussetraft-level --help`.

mod listing;
mod output;
mod picture;
mod words;
mod worker;

use output::Form;
use std::{
    io::{self, IsTerminal, Write},
    process::ExitCode,
    sync::{
        atomic::{AtomicUsize, Ordering::Relaxed},
        mpsc,
    },
    thread,
    time::{Duration, Instant},
};
use words::{Job, Order};
use worker::{Trouble, Worker};

fn main() -> ExitCode {
    let order = match words::read(std::env::args_os().skip(1)) {
        Ok(Some(order)) => order,
        Ok(None) => return told(io::stdout().write_all(words::HELP.as_bytes()), 0),
        Err(wrong) => {
            eprintln!("gussetraft-level: {wrong}; --help tells more");
            return ExitCode::from(2);
        }
    };
    let outcomes = run(&order);
    let refused = outcomes.iter().filter(|o| o.is_refused()).count();
    let failed = outcomes.iter().filter(|o| o.is_failed()).count();
    let status = match (failed, refused) {
        (0, 0) => 0,
        (0, _) => 1,
        _ => 2,
    };
    told(summary(&order, &outcomes, refused, failed), status)
}

/// The exit status; 2 where standard output could not be written.
fn told(written: io::Result<()>, status: u8) -> ExitCode {
    match written {
        Ok(()) => ExitCode::from(status),
        Err(error) => {
            eprintln!("gussetraft-level: can't write standard output: {error}");
            ExitCode::from(2)
        }
    }
}

/// What became of a file.
type Outcome = Result<(), Trouble>;

trait Became {
    fn is_refused(&self) -> bool;
    fn is_failed(&self) -> bool;
}

impl Became for Outcome {
    fn is_refused(&self) -> bool {
        matches!(self, Err(Trouble::Refused(_)))
    }

    fn is_failed(&self) -> bool {
        matches!(self, Err(Trouble::Failed(_)))
    }
}

/// Every job, by as many workers as were asked for. The outcomes are in the order of the jobs, whoever did them.
fn run(order: &Order) -> Vec<Outcome> {
    let next = AtomicUsize::new(0);
    let (sender, receiver) = mpsc::channel();
    let mut outcomes: Vec<Outcome> = Vec::new();
    outcomes.resize_with(order.jobs.len(), || Ok(()));
    thread::scope(|scope| {
        for _ in 0..order.workers.min(order.jobs.len()) {
            let (sender, next) = (sender.clone(), &next);
            scope.spawn(move || {
                let mut worker = Worker::new();
                loop {
                    let place = next.fetch_add(1, Relaxed);
                    let Some(job) = order.jobs.get(place) else {
                        break;
                    };
                    let outcome = work(&mut worker, order.form, job);
                    // the receiver is there until every sender is gone
                    let _ = sender.send((place, outcome));
                }
            });
        }
        drop(sender);
        let mut progress = Progress::new(order);
        for (place, outcome) in receiver {
            progress.one(outcome.is_err());
            outcomes[place] = outcome;
        }
        progress.end();
    });
    outcomes
}

/// One file in, one file out. A refused file has no output: an older one of its name is taken away, so that what is there is never another field's.
fn work(worker: &mut Worker, form: Form, job: &Job) -> Outcome {
    let outcome = (worker.load(&job.input))
        .and_then(|loaded| worker.build(&loaded))
        .and_then(|answer| output::write(form, &answer, &job.output));
    if outcome.is_refused() {
        output::remove(&job.output)?;
    }
    outcome
}

/// How far it is, in a line that is written over; only on a terminal.
struct Progress {
    shown: bool,
    all: usize,
    done: usize,
    wrong: usize,
    begun: Instant,
    last: Instant,
}

impl Progress {
    fn new(order: &Order) -> Self {
        let now = Instant::now();
        Self {
            shown: !order.quiet && io::stderr().is_terminal(),
            all: order.jobs.len(),
            done: 0,
            wrong: 0,
            begun: now,
            last: now,
        }
    }

    fn one(&mut self, wrong: bool) {
        self.done += 1;
        self.wrong += usize::from(wrong);
        if self.shown && self.last.elapsed() > Duration::from_millis(100) {
            self.last = Instant::now();
            let a_second = self.done as f64 / self.begun.elapsed().as_secs_f64();
            let (done, all, wrong) = (self.done, self.all, self.wrong);
            eprint!(
                "\r\x1b[K{done} of {all} files, {wrong} of them not done, {a_second:.0} a second"
            );
        }
    }

    fn end(&self) {
        if self.shown {
            eprint!("\r\x1b[K");
        }
    }
}

/// Every file that was not done and why, and the numbers.
fn summary(order: &Order, outcomes: &[Outcome], refused: usize, failed: usize) -> io::Result<()> {
    let mut out = io::stdout().lock();
    for (job, outcome) in order.jobs.iter().zip(outcomes) {
        if let Err(Trouble::Refused(why) | Trouble::Failed(why)) = outcome {
            writeln!(out, "{}: {why}", job.input.display())?;
        }
    }
    if !order.quiet {
        let done = outcomes.len() - refused - failed;
        writeln!(out, "{done} done, {refused} refused, {failed} failed")?;
    }
    out.flush()
}
