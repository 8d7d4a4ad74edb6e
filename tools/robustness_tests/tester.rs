//! Runs a program with one kind of input or output, and holds what it wrote to the oracle's answer, and what it said to what failed.

use oracle::answers;
use std::ffi::OsString;
use std::fs::{self, File, OpenOptions};
use std::io::{Read, Write};
use std::os::fd::{AsRawFd, OwnedFd};
use std::os::unix::fs::{MetadataExt, OpenOptionsExt};
use std::os::unix::net::UnixDatagram;
use std::os::unix::process::{CommandExt, ExitStatusExt};
use std::path::PathBuf;
use std::process::{Child, ChildStdin, ChildStdout, Command, ExitStatus, Stdio};
use std::thread::{self, JoinHandle};
use std::time::{Duration, Instant};

/// A program that runs longer than this did not end.
const PATIENCE: Duration = Duration::from_secs(20);
const SIGXFSZ: i32 = 25;
const O_NONBLOCK: i32 = 0o4000;

pub struct Tester {
    pub program: String,
    pub scratch: PathBuf,
    pub cases: usize,
    pub failed: usize,
}

/// What a run is given, on its standard input too, and what it must write. The program answers behind the end of its standard input.
pub struct Case {
    pub args: Vec<OsString>,
    pub input: Vec<u8>,
    pub expected: Vec<u8>,
    /// What it says on its error output where a write fails, up to the reason.
    pub complaint: &'static [u8],
}

impl Case {
    /// A log that the night listing is given, which says nothing.
    pub fn listing(log: &[u8]) -> Case {
        Case {
            args: Vec::new(),
            input: log.to_vec(),
            expected: answers::night_listing(log).into_bytes(),
            complaint: b"",
        }
    }

    /// Two logs that are to be merged: the first through standard input, the second in a file.
    pub fn merge(t: &Tester, first: &[u8], second: &[u8]) -> Case {
        let path = t.scratch.join("the second log");
        fs::write(&path, second).expect("write");
        Case {
            args: vec!["/dev/stdin".into(), path.into()],
            input: first.to_vec(),
            expected: answers::merge(first, second).into_bytes(),
            complaint: b"standard output: ",
        }
    }

    /// Whether the program said what it should: nothing where all was written.
    fn is_told(&self, run: &Run) -> bool {
        let complaint = if run.wrote.len() == self.expected.len() {
            b""
        } else {
            self.complaint
        };
        is_said(&run.errors, complaint)
    }
}

/// Whether this is one line that begins so; where nothing is to be said, nothing.
fn is_said(errors: &[u8], start: &[u8]) -> bool {
    match errors {
        [line @ .., b'\n'] => {
            !start.is_empty() && line.starts_with(start) && !line.contains(&b'\n')
        }
        _ => errors.is_empty() && start.is_empty(),
    }
}

/// How a run ended, what it wrote, and what came on its error output.
struct Run {
    status: Option<ExitStatus>,
    wrote: Vec<u8>,
    errors: Vec<u8>,
}

impl Run {
    fn ended_well(&self) -> bool {
        self.status.is_some_and(|s| s.success())
    }

    /// Ended by a signal, it says nothing.
    fn ended_by(&self, signal: i32) -> bool {
        self.status.is_some_and(|s| s.signal() == Some(signal)) && self.errors.is_empty()
    }
}

/// Waits for the end; kills what does not end.
fn wait(child: &mut Child) -> Option<ExitStatus> {
    let began = Instant::now();
    while began.elapsed() < PATIENCE {
        if let Some(status) = child.try_wait().expect("try_wait") {
            return Some(status);
        }
        thread::sleep(Duration::from_micros(200));
    }
    child.kill().expect("kill");
    child.wait().expect("wait");
    None
}

/// Takes all output in a thread of its own.
fn collect(mut output: impl Read + Send + 'static) -> JoinHandle<Vec<u8>> {
    thread::spawn(move || {
        let mut wrote = Vec::new();
        output.read_to_end(&mut wrote).expect("read");
        wrote
    })
}

/// A program that runs; a thread takes its error output.
struct Started {
    child: Child,
    errors: JoinHandle<Vec<u8>>,
}

impl Started {
    /// The command ends here, and with it our hold on the input and output that it hands on.
    fn new(mut command: Command) -> Started {
        let mut child = command.stderr(Stdio::piped()).spawn().expect("spawn");
        let errors = collect(child.stderr.take().expect("stderr"));
        Started { child, errors }
    }

    /// With pipes for input and output.
    fn piped(mut command: Command) -> Started {
        command.stdin(Stdio::piped()).stdout(Stdio::piped());
        Started::new(command)
    }

    fn stdin(&mut self) -> ChildStdin {
        self.child.stdin.take().expect("stdin")
    }

    fn stdout(&mut self) -> ChildStdout {
        self.child.stdout.take().expect("stdout")
    }

    fn give(&mut self, input: &[u8]) {
        self.stdin().write_all(input).expect("write");
    }

    /// Waits for the end, then takes what was written.
    fn end(mut self, wrote: impl FnOnce() -> Vec<u8>) -> Run {
        Run {
            status: wait(&mut self.child),
            wrote: wrote(),
            errors: self.errors.join().expect("errors"),
        }
    }
}

/// Hands over the input and takes all output.
fn run(command: Command, input: impl FnOnce(Box<dyn Write + Send>) + Send + 'static) -> Run {
    let mut program = Started::piped(command);
    let stdin = program.stdin();
    let writer = thread::spawn(move || input(Box::new(stdin)));
    let reader = collect(program.stdout());
    let run = program.end(|| reader.join().expect("reader"));
    writer.join().expect("writer");
    run
}

impl Tester {
    /// Counts a case; says so where it failed.
    fn check(&mut self, name: &str, good: bool, run: &Run) {
        self.cases += 1;
        if !good {
            self.failed += 1;
            let start = |bytes: &[u8]| bytes[..bytes.len().min(200)].escape_ascii().to_string();
            eprintln!(
                "{name}: failed; status {:?}, {} bytes: {}; errors: {}",
                run.status,
                run.wrote.len(),
                start(&run.wrote),
                start(&run.errors)
            );
        }
    }

    fn command(&self, args: &[OsString]) -> Command {
        let mut command = Command::new(&self.program);
        command.args(args);
        command
    }

    /// The program run by the shell, with these words around it; `$0` is the program and `$@` its arguments.
    fn shell(&self, script: &str, args: &[OsString]) -> Command {
        let mut command = Command::new("sh");
        command.args(["-c", script, &self.program]).args(args);
        command
    }

    /// The whole input at once through a pipe.
    pub fn whole(&mut self, name: &str, input: &[u8]) {
        self.answered(name, &Case::listing(input));
    }

    /// The same, with the listing at hand.
    pub fn listed(&mut self, name: &str, input: &[u8], expected: &[u8]) {
        let expected = expected.to_vec();
        let case = Case {
            expected,
            ..Case::listing(input)
        };
        self.answered(name, &case);
    }

    /// The program may end before it has read all.
    pub fn answered(&mut self, name: &str, case: &Case) {
        let bytes = case.input.clone();
        let run = run(self.command(&case.args), move |mut pipe| {
            let _ = pipe.write_all(&bytes);
        });
        let good = run.ended_well() && run.wrote == case.expected && run.errors.is_empty();
        self.check(name, good, &run);
    }

    /// Arguments with which nothing can be done: nothing is written, and this line is said.
    pub fn said(&mut self, name: &str, args: &[OsString], line: &str) {
        self.said_by(self.command(args), name, line);
    }

    fn said_by(&mut self, command: Command, name: &str, line: &str) {
        let run = run(command, |_| ());
        let good = run.ended_well() && run.wrote.is_empty() && run.errors == line.as_bytes();
        self.check(name, good, &run);
    }

    /// Run by one who may not read what is closed to others, which root may. He has a copy where he reaches it.
    fn by_nobody(&self, args: &[OsString]) -> Command {
        const NOBODY: u32 = 65_534;
        let copy = self.scratch.join("program");
        fs::copy(&self.program, &copy).expect("copy");
        let mut command = Command::new(copy);
        command.args(args);
        if fs::metadata("/proc/self").expect("metadata").uid() == 0 {
            command.uid(NOBODY).gid(NOBODY);
        }
        command
    }

    /// The same as `said` for such a one, where he can run the program at all, as he does with other arguments.
    pub fn forbidden(&mut self, name: &str, args: &[OsString], others: &[OsString], line: &str) {
        let able = self.by_nobody(others).output();
        if able.is_ok_and(|run| run.status.success() && run.stderr.is_empty()) {
            return self.said_by(self.by_nobody(args), name, line);
        }
        println!("skipped: {name}: nobody cannot run {}", self.program);
        if std::env::var_os("CI").is_some() {
            self.failed += 1;
        }
    }

    /// With these words of the shell behind it, which leave the output alone.
    pub fn redirected(&mut self, name: &str, words: &str, case: &Case) {
        let script = format!("exec \"$0\" \"$@\" {words}");
        let run = run(self.shell(&script, &case.args), |_| ());
        let good = run.ended_well() && run.wrote == case.expected && run.errors.is_empty();
        self.check(name, good, &run);
    }

    /// One byte at a time through a pipe, with pauses so that reads meet them one by one.
    pub fn pipe_of_bytes(&mut self, name: &str, case: &Case) {
        let bytes = case.input.clone();
        let run = run(self.command(&case.args), move |mut pipe| {
            for byte in bytes {
                if pipe.write_all(&[byte]).is_err() {
                    return;
                }
                thread::sleep(Duration::from_micros(20));
            }
        });
        let good = run.ended_well() && run.wrote == case.expected && run.errors.is_empty();
        self.check(name, good, &run);
    }

    /// Pieces of a fixed size as datagrams: each read gives one piece and no more, whatever the pace. An empty one ends the input.
    pub fn datagrams(&mut self, name: &str, input: &[u8], size: usize) {
        let expected = answers::night_listing(input);
        let (ours, theirs) = UnixDatagram::pair().expect("socket");
        let mut command = self.command(&[]);
        command
            .stdin(Stdio::from(OwnedFd::from(theirs)))
            .stdout(Stdio::piped());
        let mut program = Started::new(command);
        let bytes = input.to_vec();
        let writer = thread::spawn(move || {
            for piece in bytes.chunks(size) {
                if ours.send(piece).is_err() {
                    return;
                }
            }
            let _ = ours.send(&[]);
        });
        let reader = collect(program.stdout());
        let run = program.end(|| reader.join().expect("reader"));
        writer.join().expect("writer");
        let good = run.ended_well() && run.wrote == expected.as_bytes() && run.errors.is_empty();
        self.check(name, good, &run);
    }

    /// An input that cannot be read prints nothing.
    pub fn unreadable(&mut self, name: &str, script: &str) {
        let run = run(self.shell(script, &[]), |_| ());
        let good = run.ended_well() && run.wrote.is_empty() && run.errors.is_empty();
        self.check(name, good, &run);
    }

    /// An output that takes nothing: the shell's words redirect it, and nothing comes through the pipe.
    pub fn shut(&mut self, name: &str, script: &str, case: &Case) {
        let bytes = case.input.clone();
        let run = run(self.shell(script, &case.args), move |mut pipe| {
            let _ = pipe.write_all(&bytes);
        });
        let good = run.ended_well() && run.wrote.is_empty() && case.is_told(&run);
        self.check(name, good, &run);
    }

    /// An output pipe that is closed behind so many bytes. A program ignores the signal for it from its start, so it sees that its write
    /// failed, whether its caller ignores the signal too or not.
    pub fn cut_off(&mut self, name: &str, case: &Case, after: usize, ignored: bool) {
        let mut program = Started::piped(if ignored {
            self.shell("trap '' PIPE; exec \"$0\" \"$@\"", &case.args)
        } else {
            self.command(&case.args)
        });
        let mut stdout = program.stdout();
        let mut wrote = vec![0; after];
        // Nothing is printed before the input ends, so an output closed at once is closed before the first write.
        if after == 0 {
            drop(stdout);
            program.give(&case.input);
        } else {
            program.give(&case.input);
            stdout.read_exact(&mut wrote).expect("read");
            drop(stdout);
        }
        let run = program.end(|| wrote);
        let ended = run.ended_well() && case.is_told(&run);
        let good = ended && case.expected.starts_with(&run.wrote);
        self.check(name, good, &run);
    }

    /// A file that may grow to so many blocks of 512 bytes: the write that passes its end is short, and the next fails.
    /// All that fits must stand there.
    pub fn limited_file(&mut self, name: &str, case: &Case, blocks: usize, ignored: bool) {
        let path = self.scratch.join("limited");
        let trap = if ignored { "trap '' XFSZ; " } else { "" };
        let script = format!("{trap}ulimit -f {blocks}; exec \"$0\" \"$@\"");
        let mut command = self.shell(&script, &case.args);
        command
            .stdin(Stdio::piped())
            .stdout(File::create(&path).expect("create"));
        let mut program = Started::new(command);
        program.give(&case.input);
        let run = program.end(|| fs::read(&path).expect("read"));
        let size = (blocks * 512).min(case.expected.len());
        let ended = if ignored || size == case.expected.len() {
            run.ended_well() && case.is_told(&run)
        } else {
            run.ended_by(SIGXFSZ)
        };
        let good = ended && run.wrote == case.expected[..size];
        self.check(name, good, &run);
    }

    /// A pipe that does not wait and has so many bytes already: a write is short or fails while the pipe is full, and a later one would be
    /// taken again. What comes through must have no gap, and be all where nothing failed.
    pub fn hasty_pipe(&mut self, name: &str, case: &Case, held: usize, pause: Duration) {
        let (mut ours, mut theirs) = std::io::pipe().expect("pipe");
        theirs.write_all(&vec![b'x'; held]).expect("write");
        let path = format!("/proc/self/fd/{}", theirs.as_raw_fd());
        let hasty = OpenOptions::new()
            .write(true)
            .custom_flags(O_NONBLOCK)
            .open(path)
            .expect("open");
        drop(theirs);
        let mut command = self.command(&case.args);
        command.stdin(Stdio::piped()).stdout(hasty);
        let mut program = Started::new(command);
        program.give(&case.input);
        let reader = thread::spawn(move || {
            thread::sleep(pause);
            let mut wrote = Vec::new();
            ours.read_to_end(&mut wrote).expect("read");
            wrote.split_off(held)
        });
        let run = program.end(|| reader.join().expect("reader"));
        // A pipe holds 16 pages, and the last of each writer may not be full.
        let enough = run.wrote.len() >= case.expected.len().min(15 * 4_096 - held);
        let good = run.ended_well() && case.expected.starts_with(&run.wrote) && enough;
        self.check(name, good && case.is_told(&run), &run);
    }

    /// The program is stopped and goes on while it waits for a full pipe: the write that waited is then short. Nothing may be lost.
    pub fn stopped(&mut self, name: &str, case: &Case) {
        let mut program = Started::piped(self.command(&case.args));
        program.give(&case.input);
        thread::sleep(Duration::from_millis(100));
        for signal in ["-STOP", "-CONT"] {
            let sent = Command::new("kill")
                .args([signal, &program.child.id().to_string()])
                .status()
                .expect("kill");
            assert!(sent.success());
            thread::sleep(Duration::from_millis(20));
        }
        let reader = collect(program.stdout());
        let run = program.end(|| reader.join().expect("reader"));
        let good = run.ended_well() && run.wrote == case.expected && run.errors.is_empty();
        self.check(name, good, &run);
    }

    /// A reader that takes little and seldom loses nothing.
    pub fn slow_reader(&mut self, name: &str, case: &Case) {
        let mut program = Started::piped(self.command(&case.args));
        program.give(&case.input);
        let mut stdout = program.stdout();
        let reader = thread::spawn(move || {
            let (mut wrote, mut piece) = (Vec::new(), [0; 997]);
            loop {
                let n = stdout.read(&mut piece).expect("read");
                if n == 0 {
                    return wrote;
                }
                wrote.extend_from_slice(&piece[..n]);
                thread::sleep(Duration::from_micros(500));
            }
        });
        let run = program.end(|| reader.join().expect("reader"));
        let good = run.ended_well() && run.wrote == case.expected && run.errors.is_empty();
        self.check(name, good, &run);
    }
}
