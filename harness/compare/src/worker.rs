//! The library's run in a process of its own, which is ended where a run takes too long.

use std::io::{self, Read, Write};
use std::process::{Child, Command, Stdio};
use std::sync::mpsc::{channel, Receiver, RecvTimeoutError};
use std::time::{Duration, Instant};

use crate::buffers::Call;
use crate::options::Options;

/// Why there is no reply.
#[derive(PartialEq, Eq, Debug)]
pub enum Lost {
    /// The time is up.
    Late,
    /// The process ended.
    Ended,
}

/// Asks for runs, one after the other, of a process that is started when there is none.
pub struct Worker {
    limit: Duration,
    fault: String,
    process: Option<Process>,
}

/// The process, and what it told.
struct Process {
    child: Child,
    replies: Receiver<Vec<u8>>,
}

/// Writes bytes behind their number.
fn send(to: &mut impl Write, bytes: &[u8]) -> io::Result<()> {
    to.write_all(&[&(bytes.len() as u32).to_le_bytes()[..], bytes].concat())?;
    to.flush()
}

/// Reads bytes that stand behind their number.
fn receive(from: &mut impl Read) -> io::Result<Vec<u8>> {
    let mut length = [0; 4];
    from.read_exact(&mut length)?;
    let mut bytes = vec![0; u32::from_le_bytes(length) as usize];
    from.read_exact(&mut bytes)?;
    Ok(bytes)
}

/// Serves runs until the standard input ends. Asked: salt, room and the file. Told: the reply, nanoseconds, whether bytes outside the
/// buffer or of the file are touched, and the buffer.
pub fn serve() {
    let (mut input, mut output) = (io::stdin().lock(), io::stdout().lock());
    while let Ok(asked) = receive(&mut input) {
        let (room, file) = (u32::from_le_bytes([asked[1], asked[2], asked[3], asked[4]]) as usize, asked[5..].to_vec());
        let start = Instant::now();
        let call = Call::salted(asked[0], room, |out| library::run(&file, out));
        let time = start.elapsed().as_nanos() as u64;
        let touched = call.outside || file != asked[5..];
        let told = [&call.number.to_le_bytes()[..], &time.to_le_bytes(), &[touched as u8], &call.after].concat();
        if send(&mut output, &told).is_err() {
            return;
        }
    }
}

impl Process {
    /// This program once more, serving runs.
    fn start(fault: &str) -> io::Result<Process> {
        let program = std::env::current_exe()?;
        let piped = || Stdio::piped();
        let mut child = Command::new(program).args(["--serve", "--fault", fault]).stdin(piped()).stdout(piped()).spawn()?;
        let mut output = child.stdout.take().expect("the output is piped");
        let (sender, replies) = channel();
        std::thread::spawn(move || {
            while let Ok(told) = receive(&mut output) {
                if sender.send(told).is_err() {
                    return;
                }
            }
        });
        Ok(Process { child, replies })
    }

    /// One run asked and told.
    fn ask(&mut self, asked: &[u8], limit: Duration) -> Result<Vec<u8>, Lost> {
        let input = self.child.stdin.as_mut().expect("the input is piped");
        send(input, asked).map_err(|_| Lost::Ended)?;
        self.replies.recv_timeout(limit).map_err(|why| if why == RecvTimeoutError::Timeout { Lost::Late } else { Lost::Ended })
    }
}

impl Drop for Process {
    /// Ends the process.
    fn drop(&mut self) {
        let _ = self.child.kill();
        let _ = self.child.wait();
    }
}

impl Worker {
    /// With the limit and the fault of the options; the process is started by the first run.
    pub fn new(options: &Options) -> Worker {
        Worker { limit: options.limit, fault: options.fault.clone(), process: None }
    }

    /// The library's run with a buffer of `room` bytes, and its time.
    pub fn run(&mut self, salt: u8, room: usize, file: &[u8]) -> Result<(Call, Duration), Lost> {
        let fault = &self.fault;
        let process = self.process.get_or_insert_with(|| Process::start(fault).expect("this program starts again"));
        let asked = [&[salt][..], &(room as u32).to_le_bytes(), file].concat();
        let told = process.ask(&asked, self.limit).inspect_err(|_| self.process = None)?;
        let number = |at: usize| u64::from_le_bytes(std::array::from_fn(|i| told[at + i]));
        let call = Call::told(salt, number(0), told[16] == 1, told[17..].to_vec());
        Ok((call, Duration::from_nanos(number(8))))
    }
}
