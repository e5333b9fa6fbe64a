//! Comparison of whole programs: their standard output and exit status.

use std::fs::{self, File};
use std::io::{self, ErrorKind, Read, Write};
use std::os::unix::fs::symlink;
use std::path::{Path, PathBuf};
use std::process::{Child, ChildStdin, Command, Stdio};
use std::thread;

use crate::coverage::Runs;
use crate::difference::{Difference, Failure};
use crate::letters;
use crate::random::Random;
use crate::sheets;
use crate::tables;

/// A pipe takes so many bytes before its reader has read one.
const TAKEN_AT_ONCE: usize = 1 << 15;

/// Every so many cases the twin's program is run too, and there is a long run.
const TWIN_TOO: u64 = 20;
const LONG_RUN: u64 = 500;

/// The two programs and the folder in which they run.
pub struct Programs {
    pub product: PathBuf,
    pub twin: PathBuf,
    folder: PathBuf,
}

/// What stands in the working folder under the name `sheet.bin`.
#[derive(Debug)]
enum SheetFile {
    Missing,
    DanglingLink,
    /// It can be opened and not be read.
    Folder,
    Bytes(Vec<u8>),
}

impl SheetFile {
    /// The bytes to be read; what cannot be opened counts as empty.
    fn bytes(&self) -> &[u8] {
        match self {
            SheetFile::Bytes(bytes) => bytes,
            _ => &[],
        }
    }
}

/// What a program left behind.
#[derive(Debug, PartialEq, Eq)]
struct Outcome {
    output: Vec<u8>,
    /// None where a signal ended the program.
    status: Option<i32>,
}

impl Drop for Programs {
    fn drop(&mut self) {
        // A folder that stays behind does no harm.
        let _ = fs::remove_dir_all(&self.folder);
    }
}

impl Programs {
    /// The product's program and the twin's, which stands beside this one.
    pub fn new(product: &Path) -> io::Result<Self> {
        let twin = std::env::current_exe()?.with_file_name("twin-bench");
        let folder = std::env::temp_dir().join(format!("twin-compare-{}", std::process::id()));
        fs::create_dir_all(&folder)?;
        Ok(Self {
            product: product.canonicalize()?,
            twin: twin.canonicalize()?,
            folder,
        })
    }

    /// One case. The first ones are special files, the others random.
    pub fn compare(
        &self,
        case: u64,
        random: &mut Random,
        coverage: &mut Runs,
    ) -> Result<(), Failure> {
        let special = special_file(case, random);
        let with_twin = special.is_some() || case.is_multiple_of(TWIN_TOO);
        let file = special.unwrap_or_else(|| SheetFile::Bytes(random_file(random)));
        let count = letter_count(case, random);
        let letters = letters::any(random, count);
        self.place(&file)?;

        let log = coverage.note(file.bytes(), &letters).map_err(|law| {
            let call = format!("law of runs: {}", law.0);
            difference(call, &file, &letters, &[], &[])
        })?;
        let expected = Outcome {
            output: log.bytes().to_vec(),
            status: Some(0),
        };
        let mut programs = vec![("the product's program", &self.product)];
        if with_twin {
            programs.push(("the twin's program against the twin in process", &self.twin));
        }
        for (name, program) in programs {
            let outcome = self.run(program, &letters, Stdio::piped())?;
            if outcome != expected {
                let call = format!(
                    "{name}: exit status {:?}, expected {:?}",
                    outcome.status, expected.status
                );
                let (output, expected) = (&outcome.output, &expected.output);
                return Err(difference(call, &file, &letters, output, expected).into());
            }
        }
        Ok(())
    }

    /// A sheet that cannot be read and an output that cannot be written have to
    /// end both programs with status 1.
    pub fn compare_troubles(&self) -> Result<(), Failure> {
        let mut random = Random::of_case(0, 0, 0);
        let lawful = SheetFile::Bytes(tables::lawful(&mut random).bytes());
        for (file, output) in [(SheetFile::Folder, "/dev/null"), (lawful, "/dev/full")] {
            self.place(&file)?;
            for program in [&self.product, &self.twin] {
                let device = File::options().write(true).open(output)?;
                let outcome = self.run(program, b"rrrrrr", device.into())?;
                if outcome.status != Some(1) {
                    let name = program.display();
                    let call = format!("{name} > {output}: exit status {:?}", outcome.status);
                    return Err(difference(call, &file, b"rrrrrr", &[], &[]).into());
                }
            }
        }
        Ok(())
    }

    fn sheet_path(&self) -> PathBuf {
        self.folder.join("sheet.bin")
    }

    /// Puts the file into the working folder in place of the one before.
    fn place(&self, file: &SheetFile) -> io::Result<()> {
        let path = self.sheet_path();
        match file {
            SheetFile::Bytes(bytes) if path.is_file() => return fs::write(&path, bytes),
            _ => remove(&path)?,
        }
        match file {
            SheetFile::Missing => Ok(()),
            SheetFile::DanglingLink => symlink(self.folder.join("nowhere"), &path),
            SheetFile::Folder => fs::create_dir(&path),
            SheetFile::Bytes(bytes) => fs::write(&path, bytes),
        }
    }

    pub fn place_sheet(&self, bytes: Vec<u8>) -> io::Result<()> {
        self.place(&SheetFile::Bytes(bytes))
    }

    /// Starts a program that takes its letters from a pipe.
    pub fn start(&self, program: &Path, stdout: Stdio) -> io::Result<Child> {
        Command::new(program)
            .current_dir(&self.folder)
            .stdin(Stdio::piped())
            .stdout(stdout)
            .stderr(Stdio::null())
            .spawn()
    }

    /// Runs a program with the letters piped in, to its end.
    fn run(&self, program: &Path, letters: &[u8], stdout: Stdio) -> io::Result<Outcome> {
        let mut child = self.start(program, stdout)?;
        let stdin = child.stdin.take().expect("standard input is a pipe");
        let output = if letters.len() <= TAKEN_AT_ONCE {
            feed(stdin, letters)?;
            read_output(&mut child)?
        } else {
            thread::scope(|scope| {
                let feeder = scope.spawn(|| feed(stdin, letters));
                let output = read_output(&mut child)?;
                feeder.join().expect("the feeder does not panic")?;
                io::Result::Ok(output)
            })?
        };
        let status = child.wait()?.code();
        Ok(Outcome { output, status })
    }
}

fn read_output(child: &mut Child) -> io::Result<Vec<u8>> {
    let mut output = Vec::new();
    if let Some(stdout) = &mut child.stdout {
        stdout.read_to_end(&mut output)?;
    }
    Ok(output)
}

/// Writes all letters and closes the pipe. A program that refuses its sheet
/// may end without reading them.
fn feed(mut stdin: ChildStdin, letters: &[u8]) -> io::Result<()> {
    match stdin.write_all(letters) {
        Err(error) if error.kind() != ErrorKind::BrokenPipe => Err(error),
        _ => Ok(()),
    }
}

fn remove(path: &Path) -> io::Result<()> {
    let removed = match path.is_dir() {
        true => fs::remove_dir(path),
        false => fs::remove_file(path),
    };
    match removed {
        Err(error) if error.kind() != ErrorKind::NotFound => Err(error),
        _ => Ok(()),
    }
}

fn difference(
    call: String,
    file: &SheetFile,
    letters: &[u8],
    product: &[u8],
    twin: &[u8],
) -> Difference {
    let sheet = match file {
        SheetFile::Bytes(bytes) => Some(bytes.clone()),
        _ => None,
    };
    Difference {
        call: match file {
            SheetFile::Bytes(_) => call,
            other => format!("{call}; sheet.bin: {other:?}"),
        },
        sheet,
        letters: letters.to_vec(),
        product: product.to_vec(),
        twin: twin.to_vec(),
    }
}

/// Files that random ones would hardly ever be.
fn special_file(case: u64, random: &mut Random) -> Option<SheetFile> {
    let mut lengthened = |length: usize| {
        let mut bytes = tables::of_32_rows(random).bytes();
        bytes.resize(length, 0);
        bytes
    };
    Some(match case {
        0 => SheetFile::Missing,
        1 => SheetFile::Bytes(Vec::new()),
        2 => SheetFile::DanglingLink,
        3 => SheetFile::Bytes(random.bytes(15)),
        // 32 lawful rows, alone and with bytes after them.
        4 => SheetFile::Bytes(lengthened(912)),
        5 => SheetFile::Bytes(lengthened(913)),
        6 => SheetFile::Bytes(lengthened(914)),
        7 => SheetFile::Bytes(lengthened(5000)),
        8 => SheetFile::Bytes(lengthened(70_000)),
        // Headers whose length field is right for what follows.
        9 => SheetFile::Bytes(of_header(33)),
        10 => SheetFile::Bytes(of_header(34)),
        11 => SheetFile::Bytes(of_header(2500)),
        12 => {
            let mut bytes = lengthened(5000);
            bytes[12..16].copy_from_slice(&5000u32.to_be_bytes());
            SheetFile::Bytes(bytes)
        }
        13 => SheetFile::Bytes(random.bytes(70_000)),
        14 => SheetFile::Bytes(random.bytes(16)),
        _ => return None,
    })
}

/// A sheet that is too long, with blank rows and a header that agrees with itself.
fn of_header(rows: usize) -> Vec<u8> {
    let mut bytes = sheets::header_bytes(rows);
    bytes.resize(16 + 28 * rows, b' ');
    bytes
}

/// A random sheet, sometimes with many bytes after it.
fn random_file(random: &mut Random) -> Vec<u8> {
    let mut bytes = sheets::any(random);
    if random.percent(2) {
        let length = random.pick(&[913, 914, 5000, 70_000]);
        bytes.resize(length, random.byte());
    }
    bytes
}

fn letter_count(case: u64, random: &mut Random) -> usize {
    let (least, most) = if case % LONG_RUN == LONG_RUN - 1 {
        (100_000, 1_000_000)
    } else {
        random.pick(&[(0, 0), (1, 30), (10, 100), (50, 500), (300, 3000)])
    };
    random.between(least, most) as usize
}
