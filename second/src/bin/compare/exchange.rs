//! One group's conversation with the other program: frames go out ahead of
//! the answers, and every byte of every answer is compared with second's.

use std::collections::VecDeque;
use std::fs;
use std::rc::Rc;
use std::sync::Arc;

use second::answer::{answer, Answer, Call, Frame, HEAD};
use second::replay::encode;

use crate::expectation::Expectation;
use crate::link::{Connection, Link, Trouble};
use crate::run::Run;

/// The group goes no further; why has been told.
#[derive(Debug)]
pub struct Stopped;

pub type Outcome<T> = Result<T, Stopped>;

pub struct Exchange<'a> {
    pub run: &'a mut Run,
    group: &'static str,
    link: Link,
    waiting: VecDeque<Waiting>,
    bytes_under_way: usize,
    cases: Vec<Case>,
    frames: u64,
    failures: u32,
}

struct Waiting {
    frame: Arc<Vec<u8>>,
    answer: Rc<Answer>,
    printed: Vec<Expectation>,
    case: usize,
    serial: u64,
}

struct Case {
    name: String,
    asked: u64,
    settled: u64,
    failures: u32,
}

impl<'a> Exchange<'a> {
    pub fn new(run: &'a mut Run, group: &'static str, connection: Connection) -> Exchange<'a> {
        let link = Link::new(connection, run.settings.patience);
        Exchange {
            run,
            group,
            link,
            waiting: VecDeque::new(),
            bytes_under_way: 0,
            cases: Vec::new(),
            frames: 0,
            failures: 0,
        }
    }

    /// What follows belongs to the named case, which counts as one check.
    pub fn case(&mut self, name: impl Into<String>) {
        self.cases.push(Case {
            name: name.into(),
            asked: 0,
            settled: 0,
            failures: 0,
        });
    }

    /// Compares one call, and gives second's answer at once.
    pub fn ask(&mut self, frame: &Frame) -> Outcome<Rc<Answer>> {
        self.hold(frame, Vec::new())
    }

    /// Compares one call, and holds both answers against printed figures.
    /// Wherever a report is asked of a book and a checkpoint, the records left
    /// of them are asked too, so that every sort of checkpoint has that call.
    pub fn hold(&mut self, frame: &Frame, printed: Vec<Expectation>) -> Outcome<Rc<Answer>> {
        if frame.call == Call::Report && self.run.settings.asks_left {
            let left = Frame {
                call: Call::Left,
                ..*frame
            };
            self.send(&left, Vec::new())?;
        }
        self.send(frame, printed)
    }

    fn send(&mut self, frame: &Frame, printed: Vec<Expectation>) -> Outcome<Rc<Answer>> {
        let answer = Rc::new(answer(frame));
        let bytes = Arc::new(encode(frame));
        self.link.send(bytes.clone());
        self.bytes_under_way += bytes.len();
        self.waiting.push_back(Waiting {
            frame: bytes,
            answer: answer.clone(),
            printed,
            case: self.cases.len() - 1,
            serial: self.frames,
        });
        self.frames += 1;
        self.current_case().asked += 1;
        while self.bytes_under_way > self.run.settings.most_bytes_under_way {
            self.settle_one()?;
        }
        Ok(answer)
    }

    /// Sends bytes that begin with a head which breaks the rules. The other program must
    /// stop there by itself, after its answers to what was sent before and without any
    /// more.
    pub fn stop(&mut self, bytes: Vec<u8>) -> Outcome<()> {
        let bytes = Arc::new(bytes);
        self.link.send(bytes.clone());
        self.settle_waiting()?;
        if let Err(trouble) = self.link.wait_for_its_end() {
            self.run.fell_silent |= matches!(trouble, Trouble::Silent(_));
            return self.state(false, &format!("it doesn't stop: {trouble}"));
        }
        if self.run.settings.keeps_counts {
            self.run.counts.count_stop(&bytes);
        }
        Ok(())
    }

    /// A statement that no single frame shows, within the current case.
    pub fn state(&mut self, holds: bool, statement: &str) -> Outcome<()> {
        if holds {
            return Ok(());
        }
        self.fail(self.cases.len() - 1, statement)
    }

    /// Settles what is under way and counts the cases; `ran` says whether the
    /// group came to its end.
    pub fn finish(mut self, ran: Outcome<()>) {
        if ran.and_then(|()| self.settle_all()).is_err() {
            self.current_case().failures += 1;
            println!("       {}: the rest of this group was left out", self.group);
        }
        for case in &self.cases {
            let good = case.failures == 0 && case.settled == case.asked;
            let remark = format!(" ({} calls)", case.settled);
            self.run.tell(self.group, &case.name, good, &remark);
        }
    }

    fn settle_waiting(&mut self) -> Outcome<()> {
        while !self.waiting.is_empty() {
            self.settle_one()?;
        }
        Ok(())
    }

    fn settle_all(&mut self) -> Outcome<()> {
        self.settle_waiting()?;
        match self.link.close() {
            Ok(()) => Ok(()),
            Err(trouble) => self.state(false, &trouble.to_string()),
        }
    }

    fn settle_one(&mut self) -> Outcome<()> {
        let Some(one) = self.waiting.pop_front() else {
            return Ok(());
        };
        self.bytes_under_way -= one.frame.len();
        let complaint = match self.link.take(HEAD + one.answer.output.len()) {
            Ok(other) => one.complaint(other),
            Err(trouble) => {
                // Nothing more will come: the group ends with this failure.
                self.failures = self.run.settings.most_failures;
                self.run.fell_silent |= matches!(trouble, Trouble::Silent(_));
                return self.fail_frame(&one, &trouble.to_string());
            }
        };
        self.run.calls += 1;
        self.cases[one.case].settled += 1;
        if let Some(complaint) = complaint {
            return self.fail_frame(&one, &complaint);
        }
        if self.run.settings.keeps_counts {
            self.run.counts.count(&one.frame, &one.answer);
        }
        Ok(())
    }

    fn fail_frame(&mut self, one: &Waiting, complaint: &str) -> Outcome<()> {
        let serial = one.serial;
        let kept = self.keep(one);
        self.fail(one.case, &format!("frame {serial}: {complaint}{kept}"))
    }

    /// Keeps a frame, and tells where.
    fn keep(&self, one: &Waiting) -> String {
        let Some(folder) = &self.run.settings.failures_folder else {
            return String::new();
        };
        let seed = self.run.settings.seed;
        let path = folder.join(format!("seed-{seed}-{}-frame-{}", self.group, one.serial));
        match fs::create_dir_all(folder).and_then(|()| fs::write(&path, &**one.frame)) {
            Ok(()) => format!("; frame kept in {}", path.display()),
            Err(error) => format!("; frame not kept in {}: {error}", path.display()),
        }
    }

    fn fail(&mut self, case: usize, complaint: &str) -> Outcome<()> {
        self.failures += 1;
        self.cases[case].failures += 1;
        let (seed, group, name) = (self.run.settings.seed, self.group, &self.cases[case].name);
        println!("failure, seed {seed}, group {group}, case {name}: {complaint}");
        if self.failures >= self.run.settings.most_failures {
            return Err(Stopped);
        }
        Ok(())
    }

    fn current_case(&mut self) -> &mut Case {
        self.cases.last_mut().expect("a case is begun first")
    }
}

impl Waiting {
    /// What is wrong: the first difference between the two answers, and what
    /// in either of them is not what a document prints.
    fn complaint(&self, other: &[u8]) -> Option<String> {
        let (other_head, other_output) = other.split_first_chunk::<HEAD>()?;
        let mut complaints = Vec::new();
        if (other_head, other_output) != (&self.answer.head, &self.answer.output[..]) {
            complaints.extend(self.first_difference(other));
        }
        for printed in &self.printed {
            let ours = printed.complaint(&self.answer.head);
            complaints.extend(ours.map(|complaint| format!("second: {complaint}")));
            let theirs = printed.complaint(other_head);
            complaints.extend(theirs.map(|complaint| format!("the other: {complaint}")));
        }
        (!complaints.is_empty()).then(|| complaints.join("; "))
    }

    fn first_difference(&self, other: &[u8]) -> Option<String> {
        let ours = self.answer.head.iter().chain(&self.answer.output);
        let mut pairs = ours.zip(other).enumerate();
        let (byte, (ours, theirs)) = pairs.find(|(_, (ours, theirs))| ours != theirs)?;
        Some(format!(
            "answer byte {byte} is {theirs:02X}, second gives {ours:02X}"
        ))
    }
}
