//! A file in the place of another, whole or not at all.
use crate::{files, tidy, Failure};
use std::ffi::OsStr;
use std::fs::{self, File, Metadata, OpenOptions, Permissions};
use std::io::{self, ErrorKind, Write};
use std::os::unix::fs::{fchown, MetadataExt, OpenOptionsExt, PermissionsExt};
use std::path::{Path, PathBuf};
use std::process;
use std::sync::atomic::{AtomicUsize, Ordering};

/// The bits of a mode that lend a program its owner's or its group's rights.
const LENT_RIGHTS: u32 = 0o6000;

/// Writes a file, new or in the place of one that is there: a temporary file beside it is written, synced and renamed.
/// A link stays a link, and the file keeps its mode, and its owner and group where this user may set them. A file that
/// is read-only or has hard links is left alone unless `force`. A device or a pipe is written as it is.
pub fn replace(name: &OsStr, bytes: &[u8], force: bool) -> Result<(), Failure> {
    let unwritable = |why: String| Failure::Unwritable(format!("{} cannot be written: {why}", files::shown(name)));
    let old = match fs::metadata(name) {
        Ok(old) => Some(old),
        Err(error) if error.kind() == ErrorKind::NotFound => None,
        Err(error) => return Err(unwritable(reason(&error))),
    };
    let write = match &old {
        Some(old) if old.is_dir() => return Err(unwritable("it is a directory".into())),
        Some(old) if !old.is_file() => OpenOptions::new().write(true).open(name).and_then(|mut f| f.write_all(bytes)),
        Some(old) => {
            if let Some(why) = guarded(name, old).filter(|_| !force) {
                return Err(unwritable(format!("{why}; --force replaces it all the same")));
            }
            fs::canonicalize(name).and_then(|path| beside(&path, bytes, Some(old)))
        }
        None => new_path(name).and_then(|path| beside(&path, bytes, None)),
    };
    write.map_err(|error| unwritable(reason(&error)))
}

/// Why a file is not replaced without `--force`.
fn guarded(name: &OsStr, old: &Metadata) -> Option<String> {
    let opened = OpenOptions::new().write(true).open(name);
    if old.permissions().readonly() || opened.is_err_and(|error| error.kind() == ErrorKind::PermissionDenied) {
        return Some("it is read-only".into());
    }
    let others = old.nlink().saturating_sub(1);
    let names = if others == 1 { "name" } else { "names" };
    (others > 0).then(|| format!("it has {others} other {names} (hard links), which would keep the old file"))
}

/// The path of a file that is not there yet.
fn new_path(name: &OsStr) -> io::Result<PathBuf> {
    let path = Path::new(name);
    if fs::symlink_metadata(path).is_ok() {
        return Err(io::Error::other("it is a link to a file that is not there"));
    }
    let file = path.file_name().ok_or_else(|| io::Error::other("it is no name of a file"))?;
    let folder = path.parent().filter(|folder| !folder.as_os_str().is_empty()).unwrap_or(Path::new("."));
    Ok(fs::canonicalize(folder)?.join(file))
}

/// Writes a temporary file and renames it; what fails leaves nothing behind.
fn beside(path: &Path, bytes: &[u8], old: Option<&Metadata>) -> io::Result<()> {
    let (new, file) = temporary(path, old)?;
    let result = filled(file, bytes, old).and_then(|()| fs::rename(&new, path));
    if result.is_err() {
        fs::remove_file(&new).ok();
    }
    tidy::done_with(&new);
    result?;
    // the rename outlives a loss of power where the file system can promise it
    path.parent().map(|folder| File::open(folder).and_then(|folder| folder.sync_all()));
    Ok(())
}

/// A file beside another, with a name that no other run takes; until it has its mode only its owner may read it.
fn temporary(path: &Path, old: Option<&Metadata>) -> io::Result<(PathBuf, File)> {
    static COUNT: AtomicUsize = AtomicUsize::new(0);
    loop {
        let count = COUNT.fetch_add(1, Ordering::Relaxed);
        let new = path.with_file_name(format!(".buulset-{}-{count}", process::id()));
        tidy::announce(&new);
        let mode = if old.is_some() { 0o600 } else { 0o666 };
        match OpenOptions::new().write(true).create_new(true).mode(mode).open(&new) {
            Ok(file) => return Ok((new, file)),
            Err(error) => {
                tidy::done_with(&new);
                if error.kind() != ErrorKind::AlreadyExists {
                    return Err(error);
                }
            }
        }
    }
}

/// Writes the bytes, gives the file the owner, group and mode of the old one, and syncs it.
fn filled(mut file: File, bytes: &[u8], old: Option<&Metadata>) -> io::Result<()> {
    file.write_all(bytes)?;
    if let Some(old) = old {
        let group = fchown(&file, None, Some(old.gid())).is_ok();
        let owner = fchown(&file, Some(old.uid()), None).is_ok();
        // rights that the old owner lent are not the new owner's to lend
        let mode = if owner && group { old.mode() } else { old.mode() & !LENT_RIGHTS };
        file.set_permissions(Permissions::from_mode(mode & 0o7777))?;
    }
    file.sync_all()
}

fn reason(error: &io::Error) -> String {
    match error.kind() {
        ErrorKind::NotFound => "there is no such folder".into(),
        ErrorKind::PermissionDenied => "no permission to write a file there".into(),
        _ => error.to_string(),
    }
}
