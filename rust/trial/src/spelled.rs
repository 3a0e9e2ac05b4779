//! How a path is spelled in the manifest and in messages. Paths are bytes: a name may hold a newline, or
//! be no text at all.

use std::ffi::OsString;
use std::os::unix::ffi::{OsStrExt, OsStringExt};
use std::path::{Path, PathBuf};

/// Printable ASCII but `%` and the space stands for itself; any other byte is `%XX`.
pub fn spelled(path: &Path) -> String {
    let mut text = String::new();
    for byte in path.as_os_str().as_bytes() {
        match byte {
            b'%' => text.push_str("%25"),
            b'!'..=b'~' => text.push(char::from(*byte)),
            _ => text.push_str(&format!("%{byte:02X}")),
        }
    }
    text
}

/// The path that is spelled like this, if it is one below a folder: neither absolute, nor up and down.
/// There is one spelling of a path.
pub fn unspelled(text: &str) -> Option<PathBuf> {
    let mut bytes = Vec::new();
    let mut rest = text.bytes();
    while let Some(byte) = rest.next() {
        bytes.push(match byte {
            b'%' => 16 * digit(rest.next()?)? + digit(rest.next()?)?,
            _ => byte,
        });
    }
    let sound = |part: &[u8]| !matches!(part, b"" | b"." | b"..") && !part.contains(&0);
    if !bytes.split(|byte| *byte == b'/').all(sound) {
        return None;
    }
    let path = PathBuf::from(OsString::from_vec(bytes));
    (spelled(&path) == text).then_some(path)
}

fn digit(byte: u8) -> Option<u8> {
    match byte {
        b'0'..=b'9' => Some(byte - b'0'),
        b'A'..=b'F' => Some(byte - b'A' + 10),
        _ => None,
    }
}

#[cfg(test)]
mod tests {
    use super::*;

    fn path(bytes: &[u8]) -> PathBuf {
        PathBuf::from(OsString::from_vec(bytes.to_vec()))
    }

    #[test]
    fn every_byte_comes_back() {
        assert_eq!(spelled(&path(b"a b\n%\xFF/\tc~")), "a%20b%0A%25%FF/%09c~");
        for byte in 1..=255 {
            let name = path(&[b'x', byte, b'y']);
            assert_eq!(unspelled(&spelled(&name)), Some(name), "{byte}");
        }
    }

    #[test]
    fn other_spellings_are_refused() {
        for wrong in [
            "", "/", "/a", "a/", "a//b", ".", "a/./b", "..", "../a", "a/..", "%2E%2E/a", "%2Fa",
            "%", "%4", "%41", "%zz", "%0a", "%00", "a b", "%2f", "\u{e4}",
        ] {
            assert_eq!(unspelled(wrong), None, "{wrong}");
        }
        assert_eq!(unspelled("..a/b.."), Some(path(b"..a/b..")));
    }
}
