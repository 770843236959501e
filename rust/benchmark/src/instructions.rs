//! Instructions of one call, counted by callgrind: a second run of this program, under valgrind, is handed the cases in turn, so
//! that no document is made there.

use crate::cases::{Call, Case};
use std::io::{self, Read, Write};
use std::path::{Path, PathBuf};
use std::process::{Child, Command, Stdio};
use std::{env, fs, process};

/// The argument of the run that is counted.
pub const COUNTED: &str = "--counted";

/// Calls with more bytes than this are counted at once, others after one that is not counted.
const LONG: usize = 1_048_576;

/// Instructions of one call.
pub struct Counts {
    pub proved: u64,
    pub plain: u64,
}

/// Collecting is on inside this function alone, and each time it ends callgrind writes a file.
#[inline(never)]
#[unsafe(no_mangle)]
fn benchmark_counted_call(call: &mut Call) {
    call();
}

/// The run that is counted: one call of each reader for each case handed over, and then a byte as the answer.
pub fn serve() {
    let (mut from, mut to) = (io::stdin().lock(), io::stdout().lock());
    while let Ok(case) = Case::read(&mut from) {
        for mut call in [case.proved(), case.plain()] {
            if case.bytes.len() <= LONG {
                call();
            }
            benchmark_counted_call(&mut call);
        }
        to.write_all(&[0])
            .and_then(|()| to.flush())
            .expect("the answer is read");
    }
}

/// The counting run, as long as it works.
pub struct Counter(Option<Counting>);

impl Counter {
    pub fn start() -> Counter {
        Counter(Counting::start().map_err(untold).ok())
    }

    /// The counts of a case, or none where valgrind is missing.
    pub fn count(&mut self, case: &Case) -> Option<Counts> {
        let counted = self.0.as_mut()?.count(case).map_err(untold);
        if counted.is_err() {
            self.0 = None;
        }
        counted.ok()
    }
}

fn untold(why: io::Error) {
    eprintln!("benchmark: instructions are not counted: {why}");
}

struct Counting {
    /// Where callgrind writes its files.
    folder: PathBuf,
    /// How many of them have been read.
    files: usize,
    run: Child,
}

impl Counting {
    fn start() -> io::Result<Counting> {
        let folder = env::temp_dir().join(format!("czubrotek-callgrind-{}", process::id()));
        fs::create_dir_all(&folder)?;
        let run = Command::new("valgrind")
            .args(["-q", "--tool=callgrind", "--collect-atstart=no"])
            .args([
                "--toggle-collect=benchmark_counted_call",
                "--dump-after=benchmark_counted_call",
            ])
            .arg(format!(
                "--callgrind-out-file={}",
                folder.join("out").display()
            ))
            .arg(env::current_exe()?)
            .arg(COUNTED)
            .stdin(Stdio::piped())
            .stdout(Stdio::piped())
            .spawn()
            .inspect_err(|_| drop(fs::remove_dir(&folder)))?;
        Ok(Counting {
            folder,
            files: 0,
            run,
        })
    }

    fn count(&mut self, case: &Case) -> io::Result<Counts> {
        let pipes = (self.run.stdin.as_mut()).zip(self.run.stdout.as_mut());
        let (to, from) = pipes.expect("both are piped");
        case.write(to)?;
        from.read_exact(&mut [0])?;
        Ok(Counts {
            proved: self.next_total()?,
            plain: self.next_total()?,
        })
    }

    fn next_total(&mut self) -> io::Result<u64> {
        self.files += 1;
        let file = self.folder.join(format!("out.{}", self.files));
        let total = total(&file)?;
        fs::remove_file(&file)?;
        Ok(total)
    }
}

impl Drop for Counting {
    fn drop(&mut self) {
        // the run ends with its input; what is left in the temporary folder does no harm
        drop(self.run.stdin.take());
        let _ = self.run.wait();
        let _ = fs::remove_dir_all(&self.folder);
    }
}

/// The total that a file of callgrind's gives.
fn total(file: &Path) -> io::Result<u64> {
    fs::read_to_string(file)?
        .lines()
        .find_map(|line| line.strip_prefix("totals: "))
        .and_then(|total| total.trim().parse().ok())
        .ok_or(io::Error::other(format!("{}: no total", file.display())))
}
