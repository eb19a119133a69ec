//! The first program, asked in two ways: the library through the driver, and the program `sheets`.

use crate::case::Case;
use crate::reply::WORD;
use std::io::{BufReader, Read, Write};
use std::process::{Child, Command, Stdio};
use std::sync::atomic::{AtomicUsize, Ordering};
use std::sync::mpsc::{channel, Receiver, RecvTimeoutError};
use std::sync::Mutex;
use std::thread::{sleep, spawn};
use std::time::{Duration, Instant};

/// How long a reply may take. One that comes takes some ms, and some tens of them under an emulator.
pub const REPLY_LIMIT: Duration = Duration::from_secs(20);

/// How many processes may end before their time in one batch.
const PROCESSES_MOST: usize = 20;

/// A program that prints more than this, which no text is due, is cut off.
const PRINTED_MOST: u64 = 1 << 20;

/// How often it is looked whether a process that says no more has ended.
const PAUSE: Duration = Duration::from_micros(200);

/// Why a case has no reply.
#[derive(Clone, Copy, PartialEq, Eq, Debug)]
pub enum Lack {
    /// The process ended before it.
    Ended,
    /// The process hung, and was ended once the time was over.
    TimeOver,
    /// Too many processes had come to nothing before.
    NotAsked,
}

impl Lack {
    pub fn told(self) -> String {
        let limit = REPLY_LIMIT.as_secs();
        match self {
            Lack::Ended => "the first program ended without a reply".to_string(),
            Lack::TimeOver => {
                format!("the time was over: the first program hung for {limit} s and was ended")
            }
            Lack::NotAsked => "the first program was not asked".to_string(),
        }
    }
}

/// What came back for a case.
pub type Found = Result<Vec<u8>, Lack>;

/// How long a reply is waited for, and how often in vain. Once that is over nothing more is asked, so that a
/// program that hangs everywhere costs a few limits and not one for each case.
pub struct Patience {
    limit: Duration,
    most: usize,
    in_vain: AtomicUsize,
}

impl Patience {
    pub fn new(limit: Duration, most: usize) -> Patience {
        Patience { limit, most, in_vain: AtomicUsize::new(0) }
    }

    pub fn is_over(&self) -> bool {
        self.in_vain.load(Ordering::Relaxed) >= self.most
    }

    fn note(&self, lack: Option<Lack>) {
        let in_vain = usize::from(lack == Some(Lack::TimeOver));
        self.in_vain.fetch_add(in_vain, Ordering::Relaxed);
    }
}

/// How the next reply of a process is read; nothing where no whole one comes.
type ReadReply = fn(&mut dyn Read) -> Option<Vec<u8>>;

/// The replies of a process to an input, at most so many, and what came in their way if it did not end by itself.
/// Document 01 names no exit status, and a program that hears enough may close its ear.
fn pass(
    command: &[String],
    input: Vec<u8>,
    most: usize,
    read: ReadReply,
    limit: Duration,
) -> (Vec<Vec<u8>>, Option<Lack>) {
    let started = Command::new(&command[0])
        .args(&command[1..])
        .stdin(Stdio::piped())
        .stdout(Stdio::piped())
        .spawn();
    let Ok(mut child) = started else {
        return (Vec::new(), Some(Lack::Ended));
    };
    let heard = talk(&mut child, input, most, read);
    let mut replies = Vec::new();
    let lack = loop {
        match heard.recv_timeout(limit) {
            Ok(reply) => replies.push(reply),
            Err(RecvTimeoutError::Timeout) => break Some(Lack::TimeOver),
            Err(RecvTimeoutError::Disconnected) => break ended(&mut child, limit),
        }
    };
    if lack == Some(Lack::TimeOver) {
        let _ = child.kill();
        let _ = child.wait();
    }
    (replies, lack)
}

/// Feeds a process, and hands on each reply as it comes. The two threads end with the process, which closes its ear
/// and its mouth; nobody waits for them, since a process that it started may keep both open.
fn talk(child: &mut Child, input: Vec<u8>, most: usize, read: ReadReply) -> Receiver<Vec<u8>> {
    let (ear, mouth) = (child.stdin.take(), child.stdout.take());
    let (tell, heard) = channel();
    spawn(move || ear.map(|mut ear| ear.write_all(&input)));
    spawn(move || {
        let mut mouth = mouth.map(BufReader::new);
        let replies = (0..most).map_while(|_| read(mouth.as_mut()?));
        replies.map(|reply| tell.send(reply)).all(|told| told.is_ok())
    });
    heard
}

/// Waits for the end of a process that says no more; what is wrong with it, if anything is.
fn ended(child: &mut Child, limit: Duration) -> Option<Lack> {
    let until = Instant::now() + limit;
    loop {
        match child.try_wait() {
            Ok(None) if Instant::now() > until => return Some(Lack::TimeOver),
            Ok(None) => sleep(PAUSE),
            Ok(Some(status)) if status.code().is_some() => return None,
            _ => return Some(Lack::Ended),
        }
    }
}

/// The next reply of the driver, which writes each at once: its length, and so many bytes.
fn read_reply(mouth: &mut dyn Read) -> Option<Vec<u8>> {
    let mut length = [0; WORD];
    mouth.read_exact(&mut length).ok()?;
    let length = u32::from_le_bytes(length);
    let mut reply = Vec::new();
    mouth.take(u64::from(length)).read_to_end(&mut reply).ok()?;
    (reply.len() == length as usize).then_some(reply)
}

/// The reply of `sheets`: all that it prints.
fn read_output(mouth: &mut dyn Read) -> Option<Vec<u8>> {
    let mut output = Vec::new();
    mouth.take(PRINTED_MOST).read_to_end(&mut output).ok()?;
    Some(output)
}

pub struct Programs {
    pub driver: Vec<String>,
    pub sheets: Vec<String>,
    pub threads: usize,
}

impl Programs {
    /// The replies to cases that all go the same way.
    pub fn ask(&self, cases: &[Case], patience: &Patience) -> Vec<Found> {
        match cases.first() {
            Some(Case::Sheets(_)) => self.ask_sheets(cases, patience),
            _ => self.ask_driver(cases, patience),
        }
    }

    /// One process answers all cases, since under an emulator it is slow to start. Where it ends or hangs at
    /// a case, that case has no reply, and another process answers those that follow.
    fn ask_driver(&self, cases: &[Case], patience: &Patience) -> Vec<Found> {
        let mut found = Vec::with_capacity(cases.len());
        for _ in 0..PROCESSES_MOST {
            let left = &cases[found.len()..];
            if left.is_empty() || patience.is_over() {
                break;
            }
            let input = left.iter().flat_map(Case::encode).collect();
            let (replies, lack) = pass(&self.driver, input, left.len(), read_reply, patience.limit);
            patience.note(lack);
            found.extend(replies.into_iter().map(Ok));
            // One that has said all, and then hangs or breaks, does so at its last case.
            if found.len() == cases.len() && lack.is_some() {
                found.pop();
            }
            if found.len() < cases.len() {
                found.push(Err(lack.unwrap_or(Lack::Ended)));
            }
        }
        found.resize(cases.len(), Err(Lack::NotAsked));
        found
    }

    /// One process a text, a few at a time.
    fn ask_sheets(&self, cases: &[Case], patience: &Patience) -> Vec<Found> {
        let found = Mutex::new(vec![Err(Lack::NotAsked); cases.len()]);
        let next = AtomicUsize::new(0);
        let work = || loop {
            let place = next.fetch_add(1, Ordering::Relaxed);
            let Some(Case::Sheets(text)) = cases.get(place) else {
                return;
            };
            let reply = self.ask_text(text, patience);
            if let Ok(mut found) = found.lock() {
                found[place] = reply;
            }
        };
        std::thread::scope(|scope| {
            for _ in 0..self.threads.max(1) {
                scope.spawn(work);
            }
        });
        found.into_inner().unwrap_or_default()
    }

    fn ask_text(&self, text: &[u8], patience: &Patience) -> Found {
        if patience.is_over() {
            return Err(Lack::NotAsked);
        }
        let (replies, lack) = pass(&self.sheets, text.to_vec(), 1, read_output, patience.limit);
        patience.note(lack);
        match lack {
            Some(lack) => Err(lack),
            None => replies.into_iter().next().ok_or(Lack::Ended),
        }
    }
}

#[cfg(test)]
mod tests {
    use super::*;
    use second::setup::Setup;

    const SOON: Duration = Duration::from_secs(1);
    /// More than a pipe takes, so that who feeds a program that does not read must wait.
    const MUCH: usize = 1 << 20;

    fn shell(script: &str) -> Vec<String> {
        ["sh", "-c", script].map(str::to_string).to_vec()
    }

    fn asked(script: &str, case: Case, count: usize, patience: &Patience) -> Vec<Found> {
        let programs = Programs { driver: shell(script), sheets: shell(script), threads: 1 };
        programs.ask(&vec![case; count], patience)
    }

    #[test]
    fn a_program_that_hangs_is_ended() {
        for script in ["exec sleep 1000", "echo; exec sleep 1000", "exec >&-; exec sleep 1000"] {
            let start = Instant::now();
            let patience = Patience::new(SOON, 1);
            let found = asked(script, Case::Sheets(vec![0; MUCH]), 2, &patience);
            assert_eq!(found, [Err(Lack::TimeOver), Err(Lack::NotAsked)]);
            assert!(start.elapsed() < REPLY_LIMIT);
        }
    }

    #[test]
    fn a_driver_that_hangs_lacks_the_reply_at_which_it_stood() {
        let one_reply = "printf '\\001\\000\\000\\000x'; exec sleep 1000";
        let patience = Patience::new(SOON, 2);
        let found = asked(one_reply, Case::Fresh(Box::new(Setup::ZERO)), 5, &patience);
        let (reply, hung) = (Ok(b"x".to_vec()), Err(Lack::TimeOver));
        let due = [reply.clone(), hung.clone(), reply, hung.clone(), Err(Lack::NotAsked)];
        assert_eq!(found, due);
        let patience = Patience::new(SOON, 1);
        assert_eq!(asked(one_reply, Case::Fresh(Box::new(Setup::ZERO)), 1, &patience), [hung]);
    }

    #[test]
    fn a_program_that_ends_is_told_from_one_that_hangs() {
        let patience = Patience::new(REPLY_LIMIT, 1);
        let text = vec![b'x'; MUCH / 2];
        let case = Case::Sheets(text.clone());
        assert_eq!(asked("cat", case.clone(), 1, &patience), [Ok(text)]);
        assert_eq!(asked("cat; kill -9 $$", case, 1, &patience), [Err(Lack::Ended)]);
        assert!(!patience.is_over());
    }
}
