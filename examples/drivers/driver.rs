//! A job over a real folder, committed by `mrsim step`: 20 reduce tasks, a second attempt, and a crash of the driver.
//!
//!     rustc -O driver.rs && ./driver MRSIM      crashes the driver before each store call in turn, and recovers
//!     ./driver MRSIM FOLDER                     runs the job once, in this folder
//!
//! Works with the standard library alone. The folder is of one driver at a time.
use std::io::{BufRead, BufReader, Write};
use std::os::unix::ffi::{OsStrExt, OsStringExt};
use std::path::{Path, PathBuf};
use std::process::{Command, Stdio};
use std::{env, fmt, fs, io};

const JOB: &str = "200707121733_0003";
const TASKS: u32 = 20;

/// Why a run of the driver ended early.
#[derive(Debug)]
enum Stop {
    /// The driver is gone, between two store calls.
    Crash,
    /// An operation was refused.
    Refused(String),
    /// A stream or the folder failed.
    Io(io::Error),
}

impl From<io::Error> for Stop {
    fn from(error: io::Error) -> Stop {
        Stop::Io(error)
    }
}

impl fmt::Display for Stop {
    fn fmt(&self, f: &mut fmt::Formatter<'_>) -> fmt::Result {
        match self {
            Stop::Crash => write!(f, "crash"),
            Stop::Refused(fault) => write!(f, "refused: {fault}"),
            Stop::Io(error) => write!(f, "{error}"),
        }
    }
}

fn task(n: u32) -> String {
    format!("task_{JOB}_r_{n:06}")
}

fn attempt(n: u32, number: u32) -> String {
    format!("attempt_{JOB}_r_{n:06}_{number}")
}

/// The bytes that a word stands for.
fn decoded(word: &str) -> Vec<u8> {
    let (mut bytes, mut rest) = (Vec::new(), word.as_bytes());
    while let [byte, after @ ..] = rest {
        rest = after;
        match after {
            [a, b, after @ ..] if *byte == b'%' => {
                let digits = [*a, *b];
                let digits = std::str::from_utf8(&digits).unwrap_or("");
                bytes.push(u8::from_str_radix(digits, 16).unwrap_or(b'?'));
                rest = after;
            }
            _ => bytes.push(*byte),
        }
    }
    bytes
}

/// Bytes as a word.
fn encoded(bytes: &[u8]) -> String {
    let mut word = String::new();
    for byte in bytes {
        if byte.is_ascii_alphanumeric() || b"-._~/".contains(byte) {
            word.push(char::from(*byte));
        } else {
            word += &format!("%{byte:02X}");
        }
    }
    word
}

/// A store over a real folder: makes calls, and says what came of them.
struct Folder {
    root: PathBuf,
}

impl Folder {
    fn place(&self, word: &str) -> PathBuf {
        let path = std::ffi::OsString::from_vec(decoded(word));
        self.root.join(Path::new(&path).strip_prefix("/").unwrap_or(Path::new("")))
    }

    /// The answer to a call, both as lines without a line feed.
    fn call(&self, line: &str) -> io::Result<String> {
        let words: Vec<&str> = line.split(' ').collect();
        let answer = match words.as_slice() {
            ["mkdirs", path] => fs::create_dir_all(self.place(path)).map(|()| "done".into()),
            ["create", path, "closed"] => return self.create(&self.place(path)),
            ["delete", path] => self.delete(&self.place(path)),
            ["rename", from, to] => return self.rename(&self.place(from), &self.place(to)),
            ["list", path] => self.list(&self.place(path)),
            ["exists", path] => Ok(kind(&self.place(path)).into()),
            ["read", path] => fs::read(self.place(path)).map(|b| format!("bytes {}", encoded(&b))),
            _ => Err(io::Error::other(format!("no call: {line}"))),
        };
        match answer {
            Err(error) if error.kind() == io::ErrorKind::NotFound => Ok("Missing".into()),
            Err(error) if error.kind() == io::ErrorKind::NotADirectory => Ok("NotDir".into()),
            answer => answer,
        }
    }

    fn create(&self, place: &Path) -> io::Result<String> {
        if kind(place) != "nothing" {
            return Ok("Exists".into());
        }
        match place.parent().map_or("nothing", kind) {
            "nothing" => Ok("NoParent".into()),
            "a file" => Ok("NotDir".into()),
            _ => fs::File::create_new(place).map(|_| "done".into()),
        }
    }

    fn delete(&self, place: &Path) -> io::Result<String> {
        if place == self.root || place.parent().map_or("nothing", kind) == "nothing" {
            return Ok("NoParent".into());
        }
        match kind(place) {
            "nothing" => return Ok("Missing".into()),
            "a directory" => fs::remove_dir_all(place)?,
            _ => fs::remove_file(place)?,
        }
        Ok("done".into())
    }

    fn rename(&self, from: &Path, to: &Path) -> io::Result<String> {
        if kind(from) == "nothing" {
            return Ok("Missing".into());
        }
        if to.starts_with(from) {
            return Ok("IntoItself".into());
        }
        if kind(to) != "nothing" {
            return Ok("Exists".into());
        }
        match to.parent().map_or("nothing", kind) {
            "nothing" => Ok("NoParent".into()),
            "a file" => Ok("NotDir".into()),
            _ => fs::rename(from, to).map(|()| "done".into()),
        }
    }

    fn list(&self, place: &Path) -> io::Result<String> {
        let mut entries = Vec::new();
        for entry in fs::read_dir(place)? {
            let entry = entry?;
            entries.push((entry.file_name(), entry.file_type()?.is_dir()));
        }
        entries.sort();
        let mut line = String::from("entries");
        for (name, is_dir) in entries {
            line += &format!(" {}{}", encoded(name.as_bytes()), if is_dir { "/" } else { "" });
        }
        Ok(line)
    }
}

/// What is there.
fn kind(place: &Path) -> &'static str {
    match fs::symlink_metadata(place) {
        Err(_) => "nothing",
        Ok(found) if found.is_dir() => "a directory",
        Ok(_) => "a file",
    }
}

/// One run of the driver, as a generation of the job's master. Before store call number `crash` it is gone.
struct Driver<'a> {
    mrsim: &'a str,
    store: Folder,
    generation: u32,
    crash: Option<usize>,
    calls: usize,
}

impl Driver<'_> {
    fn call(&mut self, line: &str) -> Result<String, Stop> {
        if Some(self.calls) == self.crash {
            return Err(Stop::Crash);
        }
        self.calls += 1;
        Ok(self.store.call(line)?)
    }

    /// Makes an operation of the committer, call by call.
    fn step(&mut self, words: &[&str]) -> Result<(), Stop> {
        let mut child = Command::new(self.mrsim)
            .arg("step")
            .args(words)
            .args(["--generation", &self.generation.to_string()])
            .stdin(Stdio::piped())
            .stdout(Stdio::piped())
            .stderr(Stdio::null())
            .spawn()?;
        let told = self.talk(&mut child);
        drop(child.stdin.take());
        child.wait()?;
        told
    }

    fn talk(&mut self, child: &mut std::process::Child) -> Result<(), Stop> {
        let none = || io::Error::other("no pipe");
        let calls = BufReader::new(child.stdout.take().ok_or_else(none)?);
        let answers = child.stdin.as_mut().ok_or_else(none)?;
        for line in calls.lines() {
            let line = line?;
            if line == "finished" {
                return Ok(());
            }
            if let Some(fault) = line.strip_prefix("fault ") {
                return Err(Stop::Refused(fault.into()));
            }
            let answer = self.call(&line)?;
            writeln!(answers, "{answer}")?;
        }
        Err(Stop::Io(io::Error::other("the operation did not end")))
    }

    /// Whether an earlier generation had committed the task's output, which is taken over.
    fn recover(&mut self, n: u32) -> Result<bool, Stop> {
        match self.step(&["recover-task", &task(n)]) {
            Ok(()) => Ok(true),
            Err(Stop::Refused(fault)) if fault == "OutputMissing" => Ok(false),
            Err(stop) => Err(stop),
        }
    }

    /// An attempt writes its part file. Who writes it doesn't matter here.
    fn write(&self, n: u32, number: u32) -> io::Result<()> {
        let k = self.generation;
        let folder = format!("out/_temporary/{k}/_temporary/{}", attempt(n, number));
        let folder = self.store.root.join(folder);
        fs::create_dir_all(&folder)?;
        fs::write(folder.join(format!("part-r-{n:05}")), output(n))
    }

    fn run(&mut self) -> Result<(), Stop> {
        let first = 1000 * (self.generation - 1);
        self.step(&["setup-job"])?;
        for n in 0..TASKS {
            if self.recover(n)? {
                continue;
            }
            self.write(n, first)?;
            if n == 7 {
                self.write(n, first + 1)?; // a second attempt at one task, which has to yield
            }
            self.step(&["commit-task", &attempt(n, first)])?;
            if n == 7 {
                self.step(&["abort-task", &attempt(n, first + 1)])?;
            }
        }
        self.step(&["commit-job"])
    }
}

fn output(n: u32) -> String {
    format!("the output of task {n}\n")
}

/// The marker and each task's file, whole, and nothing else.
fn is_right(root: &Path) -> io::Result<bool> {
    let out = root.join("out");
    let mut right = fs::read_dir(&out)?.count() == TASKS as usize + 1 && fs::read(out.join("_SUCCESS"))?.is_empty();
    for n in 0..TASKS {
        right = right && fs::read_to_string(out.join(format!("part-r-{n:05}")))? == output(n);
    }
    Ok(right)
}

fn driver(mrsim: &str, root: &Path, generation: u32, crash: Option<usize>) -> Result<(), Stop> {
    let store = Folder { root: root.into() };
    Driver { mrsim, store, generation, crash, calls: 0 }.run()
}

/// Runs the job with a crash before this store call; says whether it came to that call.
fn run_with_crash(mrsim: &str, root: &Path, crash: usize) -> Result<bool, Stop> {
    fs::create_dir_all(root)?;
    let crashed = match driver(mrsim, root, 1, Some(crash)) {
        Ok(()) => false,
        // Where the marker is there the job is done; else the next generation goes on.
        Err(Stop::Crash) if root.join("out/_SUCCESS").exists() => true,
        Err(Stop::Crash) => {
            driver(mrsim, root, 2, None)?;
            true
        }
        Err(stop) => return Err(stop),
    };
    if !is_right(root)? {
        return Err(Stop::Refused(format!("wrong output after a crash before call {crash}")));
    }
    fs::remove_dir_all(root)?;
    Ok(crashed)
}

fn run(words: &[String]) -> Result<(), Stop> {
    match words {
        [_, mrsim, folder] => driver(mrsim, Path::new(folder), 1, None),
        [_, mrsim] => {
            let root = env::temp_dir().join(format!("mrsim-driver-{}", std::process::id()));
            let mut runs = 0;
            while run_with_crash(mrsim, &root, runs)? {
                runs += 1;
            }
            println!("driver.rs: {} runs, each with the whole output", runs + 1);
            Ok(())
        }
        _ => Err(Stop::Refused("usage: driver MRSIM [FOLDER]".into())),
    }
}

fn main() {
    let words: Vec<String> = env::args().collect();
    if let Err(stop) = run(&words) {
        eprintln!("driver.rs: {stop}");
        std::process::exit(1);
    }
}
