//! Many files in one run: over all cores, with the results in the files' order.
use crate::{files, say, Done, Failure};
use std::collections::BTreeMap;
use std::ffi::{OsStr, OsString};
use std::io::{self, IsTerminal, Write};
use std::os::unix::ffi::OsStrExt;
use std::sync::atomic::{AtomicUsize, Ordering};
use std::sync::mpsc;
use std::thread;
use std::time::{Duration, Instant};

/// How many files a worker takes at once.
const BATCH: usize = 32;

/// What came of one file, and what a person is told about it.
pub struct Made {
    pub end: End,
    pub said: Vec<String>,
}

pub enum End {
    Accepted,
    /// It was replaced by what was made of it.
    Changed,
    /// With the number of the question.
    Refused(u8),
}

/// A file was accepted, and there is nothing to say.
pub const ACCEPTED: Made = Made { end: End::Accepted, said: Vec::new() };

/// How the run goes.
pub struct How {
    /// Each text follows a line with the file's name.
    pub named: bool,
    /// Files are replaced: the summary says how many.
    pub in_place: bool,
    /// A summary comes at the end, and a terminal is shown how far the run is.
    pub summary: bool,
    /// Neither hints nor progress nor a summary.
    pub quiet: bool,
    /// The most bytes that are read of a file.
    pub most: usize,
}

/// The results of some files that follow each other.
struct Batch {
    /// Its number among the batches.
    number: usize,
    out: Vec<u8>,
    accepted: usize,
    /// What is to be told of a file, with the length of the output up to its end.
    told: Vec<(usize, Result<Made, Failure>)>,
}

/// How many files had which end.
#[derive(Default)]
struct Tally {
    accepted: usize,
    changed: usize,
    refused: BTreeMap<u8, usize>,
    failed: usize,
    status: u8,
}

/// Every file through `make`, which is lent the file's bytes (or told why it cannot be read) and adds its text to what
/// is printed. The output is in the order of the names.
pub fn run<F>(names: &[OsString], how: How, make: F) -> Done
where
    F: Fn(&OsStr, Result<&[u8], Failure>, &mut Vec<u8>) -> Result<Made, Failure> + Sync,
{
    let batches = names.len().div_ceil(BATCH);
    let workers = thread::available_parallelism().map_or(1, |n| n.get()).min(batches);
    let (next, (sender, receiver)) = (AtomicUsize::new(0), mpsc::sync_channel(256));
    let mut tally = Tally::default();
    thread::scope(|scope| {
        for _ in 0..workers {
            let (sender, next, make, how) = (sender.clone(), &next, &make, &how);
            scope.spawn(move || {
                let mut buffer = vec![0; how.most];
                loop {
                    let number = next.fetch_add(1, Ordering::Relaxed);
                    if number >= batches || sender.send(batch(number, names, how, &mut buffer, make)).is_err() {
                        return;
                    }
                }
            });
        }
        drop(sender);
        let printed = in_order(names.len(), &how, receiver, &mut tally);
        // the workers end at the next batch: where the output is closed, at once
        next.store(batches, Ordering::Relaxed);
        printed
    })?;
    if how.summary && !how.quiet {
        say(&tally.summary(names.len(), how.in_place));
    }
    match tally.status {
        0 => Ok(()),
        status => Err(Failure::Some(status)),
    }
}

/// The results of the files of one batch.
fn batch<F>(number: usize, names: &[OsString], how: &How, buffer: &mut [u8], make: &F) -> Batch
where
    F: Fn(&OsStr, Result<&[u8], Failure>, &mut Vec<u8>) -> Result<Made, Failure>,
{
    let (mut batch, mut text) = (Batch { number, out: Vec::new(), accepted: 0, told: Vec::new() }, Vec::new());
    for name in names.iter().skip(number * BATCH).take(BATCH) {
        let read = files::read(name, buffer).map(|length| &buffer[..length]);
        let made = make(name, read, &mut text);
        if how.named && !text.is_empty() {
            batch.out.extend_from_slice(name.as_bytes());
            batch.out.push(b'\n');
        }
        batch.out.append(&mut text);
        match made {
            Ok(Made { end: End::Accepted, said }) if said.is_empty() => batch.accepted += 1,
            told => batch.told.push((batch.out.len(), told)),
        }
    }
    batch
}

fn in_order(files: usize, how: &How, batches: mpsc::Receiver<Batch>, tally: &mut Tally) -> Done {
    let mut progress = Progress::new(how, files);
    let (mut waiting, mut next, mut out) = (BTreeMap::new(), 0, Vec::new());
    for batch in batches {
        waiting.insert(batch.number, batch);
        while let Some(batch) = waiting.remove(&next) {
            if !batch.told.is_empty() {
                progress.clear();
            }
            tally.add(batch, how.quiet, &mut out)?;
            next += 1;
        }
        if out.len() >= 1 << 16 {
            files::print(&out)?;
            out.clear();
        }
        progress.show(files.min(next * BATCH));
    }
    progress.clear();
    files::print(&out)
}

impl Tally {
    /// Counts the files of a batch; what is said of one comes after what is printed of it and of those before.
    fn add(&mut self, batch: Batch, quiet: bool, out: &mut Vec<u8>) -> Done {
        self.accepted += batch.accepted;
        let mut printed = 0;
        for (length, told) in batch.told {
            if !quiet || told.is_err() {
                out.extend_from_slice(&batch.out[printed..length]);
                printed = length;
                files::print(out)?;
                out.clear();
            }
            match told {
                Ok(made) => self.made(made, quiet),
                Err(failure) => self.failed(failure),
            }
        }
        out.extend_from_slice(&batch.out[printed..]);
        Ok(())
    }

    fn made(&mut self, made: Made, quiet: bool) {
        match made.end {
            End::Accepted => self.accepted += 1,
            End::Changed => self.changed += 1,
            End::Refused(number) => {
                *self.refused.entry(number).or_default() += 1;
                self.status = self.status.max(1);
            }
        }
        if !quiet {
            made.said.iter().for_each(|line| say(line));
        }
    }

    fn failed(&mut self, failure: Failure) {
        self.failed += 1;
        let (text, status) = match failure {
            Failure::Unwritable(text) => (text, 3),
            Failure::Unreadable(text) | Failure::Use(text) => (text, 2),
            Failure::Refused(..) | Failure::Some(_) | Failure::Closed => return,
        };
        say(&text);
        self.status = self.status.max(status);
    }

    fn summary(&self, files: usize, in_place: bool) -> String {
        let mut text = match in_place {
            true if self.accepted == 1 => format!("{} changed, 1 as it should be", self.changed),
            true => format!("{} changed, {} as they should be", self.changed, self.accepted),
            false => format!("{} accepted", self.accepted),
        };
        let refused: usize = self.refused.values().sum();
        if refused > 0 {
            let by: Vec<String> = self.refused.iter().map(|(number, n)| format!("{n} with {number}")).collect();
            text += &format!(", {refused} refused ({})", by.join(", "));
        }
        if self.failed > 0 {
            text += &format!(", {} not read or not written", self.failed);
        }
        format!("{files} {}: {text}", if files == 1 { "file" } else { "files" })
    }
}

/// A line on a terminal that says how far the run is.
struct Progress {
    shown: bool,
    on: bool,
    last: Instant,
    files: usize,
}

impl Progress {
    fn new(how: &How, files: usize) -> Progress {
        let on = how.summary && !how.quiet && io::stderr().is_terminal() && !io::stdout().is_terminal();
        Progress { shown: false, on, last: Instant::now(), files }
    }

    fn show(&mut self, done: usize) {
        if self.on && self.last.elapsed() > Duration::from_millis(100) {
            write!(io::stderr(), "\r{done} of {} files ", self.files).ok();
            (self.shown, self.last) = (true, Instant::now());
        }
    }

    fn clear(&mut self) {
        if self.shown {
            write!(io::stderr(), "\r\x1b[K").ok();
            self.shown = false;
        }
    }
}
