//! Programs `bench` and `classroom`, each started in a folder of its own, and what "The program" says that the first one writes.

use std::fs;
use std::io::{Read, Write};
use std::path::PathBuf;
use std::process::{self, Child, ChildStdin, ChildStdout, Command, ExitStatus, Stdio};
use std::sync::atomic::{AtomicUsize, Ordering};
use std::sync::mpsc::{channel, Receiver, Sender};
use std::sync::OnceLock;
use std::thread;
use std::time::{Duration, Instant};

use crate::framing;
use crate::paper::{self, Module, ModuleKind, LONGEST_REPLY};

const RUN: &str = concat!(env!("CARGO_MANIFEST_DIR"), "/../run");
const FOLDERS: &str = concat!(env!("CARGO_MANIFEST_DIR"), "/../target/cargo/tmp");
/// How long a reply or the end may take on a busy machine.
const PATIENCE: Duration = Duration::from_secs(60);

/// The bytes that the paper has the program write for `stream`, from its start to the end of input, with a module of that kind.
pub fn expected(kind: ModuleKind, links: &[u8], stream: &[u8]) -> Vec<u8> {
    let (mut module, mut links) = (Module::bench(kind), links.to_vec());
    let mut room = [0; LONGEST_REPLY];
    let mut output = Vec::new();
    for message in framing::messages(stream) {
        let outcome = paper::step(&mut module, &mut links, message, &mut room);
        output.extend(framing::frames(&room[..outcome.length]));
    }
    output
}

/// A working folder, gone when dropped.
pub struct Folder(PathBuf);

impl Folder {
    pub fn without_links() -> Self {
        static COUNT: AtomicUsize = AtomicUsize::new(0);
        let number = COUNT.fetch_add(1, Ordering::Relaxed);
        let path = PathBuf::from(format!("{FOLDERS}/program-{}-{number}", process::id()));
        fs::create_dir_all(&path).expect("a folder can be made");
        Self(path)
    }

    pub fn with_links(links: &[u8]) -> Self {
        let folder = Self::without_links();
        fs::write(folder.links(), links).expect("links.bin can be made");
        folder
    }

    /// With the row of a class too.
    pub fn and_row(self, row: impl AsRef<[u8]>) -> Self {
        fs::write(self.row(), row).expect("row can be made");
        self
    }

    pub fn links(&self) -> PathBuf {
        self.0.join("links.bin")
    }

    pub fn row(&self) -> PathBuf {
        self.0.join("row")
    }
}

impl Drop for Folder {
    fn drop(&mut self) {
        // A folder left over does no harm.
        let _ = fs::remove_dir_all(&self.0);
    }
}

#[derive(Clone, Copy)]
pub enum Program {
    Bench,
    Classroom,
}

impl Program {
    /// What `run` calls it.
    fn name(self) -> &'static str {
        match self {
            Self::Bench => "bench",
            Self::Classroom => "classroom",
        }
    }

    /// The command that starts it in `folder`. The first one proves and links it where it is missing, before any other starts.
    pub fn command(self, folder: &Folder) -> Command {
        static READY: [OnceLock<()>; 2] = [const { OnceLock::new() }; 2];
        READY[self as usize].get_or_init(|| {
            let nobody = Folder::without_links().and_row([]);
            let status = self
                .unchecked_command(&nobody)
                .stdin(Stdio::null())
                .status();
            assert!(
                status.is_ok_and(|status| status.success()),
                "{} does not run",
                self.name()
            );
        });
        self.unchecked_command(folder)
    }

    fn unchecked_command(self, folder: &Folder) -> Command {
        let mut command = Command::new(RUN);
        command.arg(self.name()).current_dir(&folder.0);
        command
    }
}

/// The command that starts `bench`.
pub fn command(folder: &Folder) -> Command {
    Program::Bench.command(folder)
}

/// A running program, for one module or for a class: input goes to it piece by piece, and its output comes as it is written.
pub struct Bench {
    child: Child,
    input: Option<Sender<Vec<u8>>>,
    output: Receiver<Vec<u8>>,
    waiting: Vec<u8>,
}

impl Bench {
    pub fn start(folder: &Folder) -> Self {
        Self::start_command(&mut command(folder))
    }

    pub fn start_command(command: &mut Command) -> Self {
        let piped = command.stdin(Stdio::piped()).stdout(Stdio::piped());
        let mut child = piped.spawn().expect("the program starts");
        let input = feed(child.stdin.take().expect("input is piped"));
        let output = drain(child.stdout.take().expect("output is piped"));
        Self {
            child,
            input: Some(input),
            output,
            waiting: Vec::new(),
        }
    }

    /// Hands over `piece` to be written at once, by itself.
    pub fn send(&mut self, piece: &[u8]) {
        let input = self.input.as_ref().expect("input is open");
        // A program that has ended is noticed by its output.
        let _ = input.send(piece.to_vec());
    }

    /// The next `length` bytes of output, while input is still open.
    pub fn receive(&mut self, length: usize) -> Vec<u8> {
        while self.waiting.len() < length {
            let more = self.output.recv_timeout(PATIENCE);
            self.waiting
                .extend(more.expect("the program answers in time"));
        }
        let later = self.waiting.split_off(length);
        std::mem::replace(&mut self.waiting, later)
    }

    /// Ends the input; what it returns is all output that was not received before.
    pub fn finish(mut self) -> Vec<u8> {
        self.input = None;
        while let Ok(more) = self.output.recv_timeout(PATIENCE) {
            self.waiting.extend(more);
        }
        let status = wait(&mut self.child);
        assert!(status.success(), "the program ended with {status}");
        std::mem::take(&mut self.waiting)
    }
}

impl Drop for Bench {
    fn drop(&mut self) {
        // Where it has ended already there is nothing to kill.
        let _ = self.child.kill();
        let _ = self.child.wait();
    }
}

/// Waits for the end of a program, but not for ever.
pub fn wait(child: &mut Child) -> ExitStatus {
    let start = Instant::now();
    while start.elapsed() < PATIENCE {
        if let Some(status) = child.try_wait().expect("a child can be waited for") {
            return status;
        }
        thread::sleep(Duration::from_millis(5));
    }
    // The panic is the report; whether the kill comes in time does not matter.
    let _ = child.kill();
    panic!("the program does not end");
}

/// A thread that writes every piece as it comes, until the program reads no more.
fn feed(mut stdin: ChildStdin) -> Sender<Vec<u8>> {
    let (sender, pieces) = channel::<Vec<u8>>();
    thread::spawn(move || {
        for piece in pieces {
            if stdin.write_all(&piece).is_err() {
                break;
            }
        }
    });
    sender
}

/// A thread that reads whatever comes, as soon as it comes.
fn drain(mut stdout: ChildStdout) -> Receiver<Vec<u8>> {
    let (sender, receiver) = channel();
    thread::spawn(move || {
        let mut piece = vec![0; 1 << 16];
        while let Ok(length @ 1..) = stdout.read(&mut piece) {
            if sender.send(piece[..length].to_vec()).is_err() {
                break;
            }
        }
    });
    receiver
}
