//! Was standard output closed when the command began?
use std::fs;
use std::os::unix::process::parent_id;
use std::path::Path;
use std::sync::OnceLock;

/// Programs that start others with `>&-`.
const SHELLS: [&str; 11] = ["sh", "bash", "dash", "zsh", "ksh", "mksh", "ash", "busybox", "fish", "tcsh", "yash"];

/// Rust puts /dev/null, open for reading and writing, in the place of a closed standard output, before any code of this
/// command runs. Python and Node lend the same on purpose; a shell never does, unless it was lent it itself. So it is
/// taken for closed where a shell started the command and has another standard output.
pub fn is_closed() -> bool {
    static CLOSED: OnceLock<bool> = OnceLock::new();
    *CLOSED.get_or_init(|| {
        let parent = Path::new("/proc").join(parent_id().to_string());
        let shell = fs::read_to_string(parent.join("comm")).is_ok_and(|name| SHELLS.contains(&name.trim_end()));
        shell && is_null_to_read_and_write(Path::new("/proc/self")) && !is_null_to_read_and_write(&parent)
    })
}

/// Is the standard output of a process /dev/null, open for reading and writing?
fn is_null_to_read_and_write(process: &Path) -> bool {
    const READ_AND_WRITE: &str = "2";
    let null = fs::read_link(process.join("fd/1")).is_ok_and(|path| path == Path::new("/dev/null"));
    let flags = fs::read_to_string(process.join("fdinfo/1")).unwrap_or_default();
    let flags = flags.lines().find_map(|line| line.strip_prefix("flags:"));
    null && flags.is_some_and(|flags| flags.trim().ends_with(READ_AND_WRITE))
}
