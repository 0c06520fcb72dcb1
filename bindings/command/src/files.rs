//! Files in and out.
use crate::arguments::Arguments;
use crate::{output, replace, Failure};
use buulset::MAX_FILE;
use std::ffi::OsStr;
use std::fs::{self, File, Metadata};
use std::io::{self, ErrorKind, Read, Write};
use std::os::fd::AsFd;
use std::os::unix::fs::MetadataExt;
use std::path::Path;

/// The most bytes that are read of a tree file: one more than question 2 passes, so it answers as for the whole file.
pub const MOST: usize = MAX_FILE + 1;

/// The bytes of a tree file, or of standard input where the name is `-`.
pub fn tree(name: &OsStr) -> Result<Vec<u8>, Failure> {
    let mut bytes = vec![0; MOST];
    let length = read(name, &mut bytes)?;
    bytes.truncate(length);
    Ok(bytes)
}

/// Fills a buffer from the start of a file, and gives how many bytes there were.
pub fn read(name: &OsStr, buffer: &mut [u8]) -> Result<usize, Failure> {
    let read = match name == "-" {
        true => fill(io::stdin().lock(), buffer),
        // a directory opens; reading it is an error
        false => File::open(name).and_then(|file| fill(file, buffer)),
    };
    read.map_err(|error| unreadable(name, &error))
}

fn fill(mut input: impl Read, buffer: &mut [u8]) -> io::Result<usize> {
    let mut length = 0;
    while length < buffer.len() {
        match input.read(&mut buffer[length..]) {
            Ok(0) => break,
            Ok(more) => length += more,
            Err(error) if error.kind() == ErrorKind::Interrupted => {}
            Err(error) => return Err(error),
        }
    }
    Ok(length)
}

/// All bytes of a file.
pub fn whole(name: &OsStr) -> Result<Vec<u8>, Failure> {
    let mut bytes = Vec::new();
    let read = match name == "-" {
        true => io::stdin().lock().read_to_end(&mut bytes),
        false => File::open(name).and_then(|mut file| file.read_to_end(&mut bytes)),
    };
    read.map(|_| bytes).map_err(|error| unreadable(name, &error))
}

/// The bytes of a nested text or of a names file, which have a few for each of at most 4,096 nodes.
pub fn text(name: &OsStr) -> Result<Vec<u8>, Failure> {
    const MOST: usize = 1 << 22;
    let mut bytes = vec![0; MOST + 1];
    let length = read(name, &mut bytes)?;
    bytes.truncate(length);
    match length <= MOST {
        true => Ok(bytes),
        false => Err(Failure::Use(format!("{} is longer than 4 MiB: is it the file that is meant?", shown(name)))),
    }
}

fn unreadable(name: &OsStr, error: &io::Error) -> Failure {
    Failure::Unreadable(format!("{}: {}", shown(name), reason(error)))
}

fn reason(error: &io::Error) -> String {
    match error.kind() {
        ErrorKind::NotFound => "there is no such file".into(),
        ErrorKind::PermissionDenied => "no permission to read it".into(),
        ErrorKind::IsADirectory => "it is a directory".into(),
        _ => error.to_string(),
    }
}

/// A name as it is shown: control characters by their escapes.
pub fn shown(name: &OsStr) -> String {
    if name == "-" {
        return "standard input".into();
    }
    let escape = |c: char| if c.is_control() { c.escape_default().to_string() } else { c.into() };
    name.to_string_lossy().chars().map(escape).collect()
}

/// A name as a shell takes it in a command.
pub fn for_a_shell(name: &OsStr) -> String {
    let text = name.to_string_lossy();
    let plain = |c: char| c.is_alphanumeric() || "_-./,+:@%=".contains(c);
    match !text.is_empty() && text.chars().all(plain) {
        true => text.into(),
        false => format!("'{}'", text.replace('\'', "'\\''")),
    }
}

/// A name without its folders.
pub fn base(name: &OsStr) -> String {
    Path::new(name).file_name().filter(|_| name != "-").map_or(shown(name), shown)
}

/// Writes to standard output; a pipe that nobody reads any more is told apart.
pub fn print(bytes: &[u8]) -> Result<(), Failure> {
    if !bytes.is_empty() && output::is_closed() {
        return Err(Failure::Unwritable("standard output cannot be written: it is closed".into()));
    }
    let mut out = io::stdout().lock();
    out.write_all(bytes).and_then(|()| out.flush()).map_err(|error| match error.kind() {
        ErrorKind::BrokenPipe => Failure::Closed,
        _ => Failure::Unwritable(format!("standard output cannot be written: {error}")),
    })
}

/// Does standard output go to the file of this name?
pub fn is_standard_output(name: &OsStr) -> bool {
    let output = io::stdout().as_fd().try_clone_to_owned().and_then(|fd| File::from(fd).metadata());
    let same = |a: Metadata, b: Metadata| a.is_file() && (a.dev(), a.ino()) == (b.dev(), b.ino());
    output.and_then(|output| fs::metadata(name).map(|file| same(output, file))).unwrap_or(false)
}

/// Puts what a command made where its options say: into the file of `-o`, in the place of the file `from` that it was
/// made of (`--in-place`), or on standard output. Call it with a result only; a refusal leaves every file as it is.
pub fn deliver(arguments: &Arguments, from: Option<&OsStr>, made: &[u8]) -> Result<(), Failure> {
    let target = arguments.option("--output").or(from.filter(|_| arguments.has("--in-place")));
    write(target.unwrap_or(OsStr::new("-")), made, arguments.has("--force"))
}

/// Writes a file, whole or not at all; `-` is standard output.
pub fn write(name: &OsStr, bytes: &[u8], force: bool) -> Result<(), Failure> {
    if name == "-" {
        return print(bytes);
    }
    replace::replace(name, bytes, force)
}
