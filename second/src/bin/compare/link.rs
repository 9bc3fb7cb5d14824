//! The pipes to the other program: one thread writes, one reads, so that
//! neither side ever waits for the other with both pipes full.

use std::io::{self, BufWriter, Read, Write};
use std::process::{Child, Command, Stdio};
use std::sync::mpsc::{channel, Receiver, RecvTimeoutError, Sender};
use std::sync::Arc;
use std::thread;
use std::time::Duration;

/// The other side: where frames go, where answers come from.
pub struct Connection {
    pub input: Box<dyn Write + Send>,
    pub output: Box<dyn Read + Send>,
    pub child: Option<Child>,
}

pub struct Link {
    frames: Option<Sender<Arc<Vec<u8>>>>,
    chunks: Receiver<Vec<u8>>,
    received: Vec<u8>,
    taken: usize,
    child: Option<Child>,
    patience: Duration,
}

/// How the other program fails to answer.
#[derive(Debug)]
pub enum Trouble {
    Ended,
    Silent(Duration),
    Surplus(usize),
}

impl std::fmt::Display for Trouble {
    fn fmt(&self, to: &mut std::fmt::Formatter) -> std::fmt::Result {
        match self {
            Trouble::Ended => write!(to, "the other program ended before its answer"),
            Trouble::Silent(time) => {
                write!(to, "the other program gave no answer for {time:?}")
            }
            Trouble::Surplus(bytes) => {
                write!(
                    to,
                    "the other program wrote {bytes} bytes after its last answer"
                )
            }
        }
    }
}

pub fn start(command: &[String]) -> io::Result<Connection> {
    let mut child = Command::new(&command[0])
        .args(&command[1..])
        .stdin(Stdio::piped())
        .stdout(Stdio::piped())
        .spawn()?;
    let input = child.stdin.take().expect("standard input is a pipe");
    let output = child.stdout.take().expect("standard output is a pipe");
    Ok(Connection {
        input: Box::new(input),
        output: Box::new(output),
        child: Some(child),
    })
}

impl Link {
    pub fn new(connection: Connection, patience: Duration) -> Link {
        let (frames, frames_to_write) = channel();
        let (chunks_read, chunks) = channel();
        thread::spawn(move || write_frames(connection.input, frames_to_write));
        thread::spawn(move || read_chunks(connection.output, chunks_read));
        Link {
            frames: Some(frames),
            chunks,
            received: Vec::new(),
            taken: 0,
            child: connection.child,
            patience,
        }
    }

    /// Hands a frame to the writing thread; whether it arrives shows in the
    /// answers, so that a broken pipe is told once, in one place.
    pub fn send(&mut self, frame: Arc<Vec<u8>>) {
        if let Some(frames) = &self.frames {
            let _ = frames.send(frame);
        }
    }

    /// The next `length` bytes of the other program's output.
    pub fn take(&mut self, length: usize) -> Result<&[u8], Trouble> {
        while self.received.len() - self.taken < length {
            let chunk = self.next_chunk()?.ok_or(Trouble::Ended)?;
            self.received.drain(..self.taken);
            self.taken = 0;
            self.received.extend(chunk);
        }
        self.taken += length;
        Ok(&self.received[self.taken - length..self.taken])
    }

    /// Ends the other program's input; nothing more may come from it.
    pub fn close(&mut self) -> Result<(), Trouble> {
        self.frames = None;
        self.wait_for_its_end()
    }

    /// The end of the other program's output, whatever its input; nothing may come before.
    pub fn wait_for_its_end(&mut self) -> Result<(), Trouble> {
        let mut surplus = self.received.len() - self.taken;
        while let Some(chunk) = self.next_chunk()? {
            surplus += chunk.len();
        }
        match surplus {
            0 => Ok(()),
            bytes => Err(Trouble::Surplus(bytes)),
        }
    }

    /// Nothing at the end of the other program's output.
    fn next_chunk(&mut self) -> Result<Option<Vec<u8>>, Trouble> {
        match self.chunks.recv_timeout(self.patience) {
            Ok(chunk) => Ok(Some(chunk)),
            Err(RecvTimeoutError::Disconnected) => Ok(None),
            Err(RecvTimeoutError::Timeout) => Err(Trouble::Silent(self.patience)),
        }
    }
}

impl Drop for Link {
    fn drop(&mut self) {
        if let Some(child) = &mut self.child {
            // It may have ended by itself; then there is nothing to stop.
            let _ = child.kill();
            let _ = child.wait();
        }
    }
}

fn write_frames(input: Box<dyn Write + Send>, frames: Receiver<Arc<Vec<u8>>>) {
    let mut input = BufWriter::with_capacity(1 << 16, input);
    while let Ok(frame) = frames.recv() {
        let mut written = input.write_all(&frame);
        while let Ok(frame) = frames.try_recv() {
            written = written.and_then(|()| input.write_all(&frame));
        }
        if written.and_then(|()| input.flush()).is_err() {
            return;
        }
    }
}

fn read_chunks(mut output: Box<dyn Read + Send>, chunks: Sender<Vec<u8>>) {
    let mut buffer = vec![0; 1 << 16];
    loop {
        match output.read(&mut buffer) {
            Ok(0) => return,
            Ok(length) if chunks.send(buffer[..length].to_vec()).is_err() => return,
            Ok(_) => {}
            Err(error) if error.kind() == io::ErrorKind::Interrupted => {}
            Err(_) => return,
        }
    }
}
