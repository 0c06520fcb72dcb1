//! `repair`: a damaged file becomes what it was, and what cannot be mended is refused.
mod common;
use common::*;
use std::fs;

/// A generator of numbers: xorshift, from a seed.
struct Random(u64);

impl Random {
    fn below(&mut self, end: usize) -> usize {
        self.0 ^= self.0 << 13;
        self.0 ^= self.0 >> 7;
        self.0 ^= self.0 << 17;
        (self.0 % end as u64) as usize
    }

    fn is_chosen(&mut self) -> bool {
        self.below(2) == 0
    }
}

/// An accepted file: children by chance, at most 6 moves deep.
fn accepted(random: &mut Random) -> String {
    let (mut depth, mut node, mut file) = (vec![0], 0, String::new());
    while node < depth.len() {
        let count = if depth[node] < 6 && depth.len() < 200 { random.below(5) } else { 0 };
        if count == 0 {
            let value = random.below(64_001) as i32 - 32_000;
            file += &format!("00000000{:04X}\n", value as i16);
        } else {
            let again = u8::from(node > 0 && random.below(4) == 0);
            file += &format!("{:04X}{count:02X}{again:02X}0000\n", depth.len());
            depth.extend(std::iter::repeat_n(depth[node] + 1, count));
        }
        node += 1;
    }
    file
}

/// The file with damages by chance.
fn damaged(file: &str, random: &mut Random) -> Vec<u8> {
    let mut text = if random.is_chosen() { file.to_lowercase() } else { file.to_string() };
    if random.is_chosen() {
        let blanks = ["", " ", "\t", "  "];
        text = text.chars().map(|c| format!("{}{c}", blanks[random.below(4)])).collect();
    }
    if random.is_chosen() {
        text = text.trim_end_matches('\n').to_string();
    } else if random.is_chosen() {
        text += &["\n", " \n\n", "\n\n\t\n"][random.below(3)];
    }
    match random.below(3) {
        0 => text = text.replace('\n', "\r\n"),
        1 => text = text.replace('\n', "\r"),
        _ => {}
    }
    let mark: &[u8] = if random.is_chosen() { b"\xEF\xBB\xBF" } else { b"" };
    [mark, text.as_bytes()].concat()
}

#[test]
fn a_damaged_file_becomes_what_it_was() {
    let seed = std::env::var("SEED").ok().and_then(|s| s.parse().ok()).unwrap_or(1);
    let mut random = Random(0x9E37_79B9_7F4A_7C15 ^ seed);
    let folder = Folder::new("repair");
    let files: Vec<(String, Vec<u8>)> = (0..300)
        .map(|_| {
            let file = accepted(&mut random);
            let broken = damaged(&file, &mut random);
            (file, broken)
        })
        .collect();
    let names: Vec<String> =
        files.iter().enumerate().map(|(k, (_, broken))| folder.file(&format!("{k}.tree"), broken)).collect();
    let printed = with_input(&["repair", "-q", "--from", "-"], names.join("\n").as_bytes());
    let expected: String = names.iter().zip(&files).map(|(name, (file, _))| format!("{name}\n{file}")).collect();
    assert_eq!((printed.status, printed.out == expected), (0, true));
    let ran = with_input(&["repair", "--in-place", "--from", "-"], names.join("\r\n").as_bytes());
    assert_eq!((ran.status, ran.out.as_str()), (0, ""));
    for (name, (file, _)) in names.iter().zip(&files) {
        assert_eq!(&fs::read_to_string(name).unwrap(), file);
    }
    let changed = files.iter().filter(|(file, broken)| file.as_bytes() != broken.as_slice()).count();
    let unchanged = files.len() - changed;
    assert!(ran.err.contains(&format!("300 files: {changed} changed, {unchanged} as")), "{}", ran.err);
    assert_eq!(fs::read_dir(&folder.0).unwrap().count(), files.len(), "nothing is left over");
}

#[test]
fn it_says_what_it_mended() {
    let mended = |file: &[u8], what: &str| {
        let ran = with_input(&["repair"], file);
        assert_eq!((ran.status, ran.out.as_str()), (0, "000000007D00\n"));
        assert_eq!(ran.err, format!("buulset: standard input: mended {what}\n"));
    };
    mended(b"\xEF\xBB\xBF000000007D00\n", "a byte order mark");
    mended(b"000000007D00\r\n", "Windows line ends");
    mended(b"000000007D00\r", "line ends that are a carriage return alone");
    mended(b"0000 0000\t7D00 \n", "blanks or tabs");
    mended(b"000000007D00\n\n\n", "blank lines at the end");
    mended(b"000000007d00\n", "small letters");
    mended(b"000000007D00", "a missing last line feed");
    mended(
        b"\xEF\xBB\xBF000000007d00\r\n \r\n",
        "a byte order mark, Windows line ends, blanks or tabs, blank lines at the end, small letters",
    );
    let ran = with_input(&["repair", "-"], b"000000007D00\n");
    assert_eq!((ran.status, ran.out.as_str(), ran.err.as_str()), (0, "000000007D00\n", ""));
}

#[test]
fn what_is_still_refused_is_refused() {
    let folder = Folder::new("unrepaired");
    is_refused(&with_input(&["repair"], b""), "refused 1 0", &["empty"]);
    is_refused(&with_input(&["repair"], b"\xEF\xBB\xBF"), "refused 1 0", &[]);
    is_refused(&with_input(&["repair"], b"\n\n"), "refused 1 0", &[]);
    is_refused(&with_input(&["repair"], b"00000000007\r\n"), "refused 3 0", &["11 digits"]);
    is_refused(&with_input(&["repair"], b"000000000007\n\n000000000007\n"), "refused 3 1", &["among the others"]);
    is_refused(&with_input(&["repair"], b"000000000007\r\n000000000007\r\n"), "refused 8 2", &["too many lines"]);
    is_refused(&with_input(&["repair"], &b"000000000007\n".repeat(100_000)), "refused 2 0", &["4096"]);
    // blanks alone may make a file longer than any tree
    let wide = format!("000000000007{}\n", " ".repeat(60_000));
    assert_eq!(with_input(&["repair"], wide.as_bytes()).out, "000000000007\n");
    let file = folder.file("cut.tree", "000101000000\r\n0000\r\n");
    is_refused(&run(&["repair", "--in-place", &file]), "refused 3 1", &["1 file: 0 changed", "1 refused (1 with 3)"]);
    assert_eq!(fs::read_to_string(&file).unwrap(), "000101000000\r\n0000\r\n");
    is_wrong_use(&["repair", &file, &file, "-o", "x"], "-o takes the result of one FILE");
    is_wrong_use(&["repair", "--in-place", "-"], "no place to be changed in");
    let made = folder.0.join("made").to_str().unwrap().to_string();
    assert_eq!(run(&["repair", "samples/stored.tree", "-o", &made]).status, 0);
    assert_eq!(fs::read(&made).unwrap(), fs::read(root().join("samples/stored.capitals")).unwrap());
}
