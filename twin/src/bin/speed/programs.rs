//! The two programs as child processes.

use std::fs::{self, File};
use std::io::{self, Read, Write};
use std::path::{Path, PathBuf};
use std::process::{Command, Stdio};
use std::time::Duration;

use crate::cpu;

pub struct Programs {
    pub product: PathBuf,
    pub twin: PathBuf,
    folder: PathBuf,
}

impl Drop for Programs {
    fn drop(&mut self) {
        // A folder that stays behind does no harm.
        let _ = fs::remove_dir_all(&self.folder);
    }
}

impl Programs {
    /// The product's program and the twin's, which stands beside this one.
    pub fn new(product: &Path) -> io::Result<Self> {
        let twin = std::env::current_exe()?.with_file_name("twin-bench");
        let folder = std::env::temp_dir().join(format!("twin-speed-{}", std::process::id()));
        fs::create_dir_all(&folder)?;
        Ok(Self {
            product: product.canonicalize()?,
            twin: twin.canonicalize()?,
            folder,
        })
    }

    /// Puts sheet and letters into the folder in which the programs run.
    pub fn place(&self, sheet: &[u8], letters: &[u8]) -> io::Result<()> {
        fs::write(self.folder.join("sheet.bin"), sheet)?;
        fs::write(self.folder.join("letters"), letters)
    }

    /// The processor time of a run, the log thrown away. Standard error is
    /// closed when the program ends; what it has used then can be looked up as
    /// long as it was not waited for.
    pub fn time(&self, program: &Path) -> io::Result<Duration> {
        let letters = File::open(self.folder.join("letters"))?;
        let mut child = self
            .command(program)
            .stdin(letters)
            .stderr(Stdio::piped())
            .spawn()?;
        let mut message = String::new();
        if let Some(stderr) = &mut child.stderr {
            stderr.read_to_string(&mut message)?;
        }
        let taken = cpu::time_of_process(child.id())?;
        match child.wait()?.success() {
            true => Ok(taken),
            false => Err(io::Error::other(message)),
        }
    }

    /// The most memory, in KiB, that a program has used when it has taken all
    /// letters: looked up before its input is closed, while it still lives.
    pub fn peak_memory(&self, program: &Path, letters: &[u8]) -> io::Result<u64> {
        let mut child = self.command(program).stdin(Stdio::piped()).spawn()?;
        let mut stdin = child.stdin.take().expect("standard input is a pipe");
        stdin.write_all(letters)?;
        let status = fs::read_to_string(format!("/proc/{}/status", child.id()))?;
        drop(stdin);
        child.wait()?;
        high_water_mark(&status).ok_or_else(|| io::Error::other("no VmHWM in the status"))
    }

    fn command(&self, program: &Path) -> Command {
        let mut command = Command::new(program);
        command.current_dir(&self.folder).stdout(Stdio::null());
        command
    }
}

fn high_water_mark(status: &str) -> Option<u64> {
    let line = status
        .lines()
        .find_map(|line| line.strip_prefix("VmHWM:"))?;
    line.split_whitespace().next()?.parse().ok()
}
