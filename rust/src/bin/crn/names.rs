//! Names and words of others as they are printed: none of them forges a line or steers a terminal.
use std::ffi::{OsStr, OsString};

/// The name that bytes are; where a system has names of text alone, nothing if they are none.
pub fn of_bytes(bytes: &[u8]) -> Option<OsString> {
    #[cfg(unix)]
    return Some(std::os::unix::ffi::OsStringExt::from_vec(bytes.to_vec()));
    #[cfg(not(unix))]
    return std::str::from_utf8(bytes).ok().map(OsString::from);
}

/// Whether a character is seen as it is, and does nothing else. What Rust holds for unprintable are the controls (C0, DEL, C1), the marks
/// without a width or for the direction of writing, other spaces and line ends, what is private or not assigned. A mark over a letter may
/// stand in a name: that is why a letter is before it here.
pub fn plain(c: char) -> bool {
    matches!(c, ' '..='~') || (!c.is_ascii() && ['a', c].iter().collect::<String>().escape_debug().count() == 2)
}

/// A name for people: as it is where every character is plain; else in quotes, with escapes. No name is shown as it is that begins with a
/// quote, and so the two can't be mixed up.
pub fn shown(name: impl AsRef<OsStr>) -> String {
    let name = name.as_ref();
    let ends = |text: &str| text.is_empty() || text.starts_with(['"', ' ']) || text.ends_with(' ');
    match name.to_str() {
        Some(text) if !ends(text) && text.chars().all(plain) => text.into(),
        _ => escaped(name),
    }
}

fn escaped(name: &OsStr) -> String {
    let mut out = String::from("\"");
    for chunk in name.as_encoded_bytes().utf8_chunks() {
        for c in chunk.valid().chars() {
            match c {
                '"' | '\\' => out.extend(['\\', c]),
                c if plain(c) => out.push(c),
                '\n' => out += "\\n",
                '\r' => out += "\\r",
                '\t' => out += "\\t",
                c if c.is_ascii() => out += &format!("\\x{:02x}", c as u32),
                c => out += &format!("\\u{{{:x}}}", c as u32),
            }
        }
        chunk.invalid().iter().for_each(|byte| out += &format!("\\x{byte:02x}"));
    }
    out + "\""
}

#[cfg(test)]
mod tests {
    use super::*;

    #[test]
    fn a_plain_name_is_shown_as_it_is() {
        for name in ["a.crn", "folder/a b.crn", "grün.crn", "e\u{301}.crn", "日本.crn", "c:\\a.crn", "it's \"it\"", "-", "🎈"] {
            assert_eq!(shown(name), name);
        }
    }

    #[test]
    fn what_is_not_plain_is_escaped() {
        for (name, asked) in [
            ("", r#""""#),
            (" a", r#"" a""#),
            ("a ", r#""a ""#),
            ("\"a\"", r#""\"a\"""#),
            ("a\nb", r#""a\nb""#),
            ("a\r\t\\\"b", r#""a\r\t\\\"b""#),
            ("\x1b[2J", r#""\x1b[2J""#),
            ("\0\x07\x7f", r#""\x00\x07\x7f""#),
            ("\u{85}\u{9b}31m", r#""\u{85}\u{9b}31m""#),
            ("\u{202e}nrc.a", r#""\u{202e}nrc.a""#),
            ("a\u{2028}b\u{2029}", r#""a\u{2028}b\u{2029}""#),
            ("a\u{200b}\u{200d}\u{feff}\u{ad}", r#""a\u{200b}\u{200d}\u{feff}\u{ad}""#),
            ("\u{61c}\u{200f}\u{2066}\u{2069}\u{e0041}", r#""\u{61c}\u{200f}\u{2066}\u{2069}\u{e0041}""#),
        ] {
            assert_eq!(shown(name), asked);
        }
    }

    /// No text is shown with a character that a terminal or a reader would take for anything else, and no two names are shown alike.
    #[test]
    fn every_character_is_shown_plainly_and_by_itself() {
        let mut seen = std::collections::HashSet::new();
        for c in '\0'..=char::MAX {
            let text = shown(String::from(c));
            let invisible = |c: u32| matches!(c, 0x61c | 0x200b..=0x200f | 0x2028..=0x202e | 0x2060..=0x206f | 0xfeff | 0xe0000..=0xe007f);
            assert!(!text.contains(|c: char| c.is_control() || invisible(c as u32)), "{:x}", c as u32);
            assert!(seen.insert(text), "{:x}", c as u32);
        }
    }

    #[cfg(unix)]
    #[test]
    fn bytes_that_are_no_text_are_kept() {
        use std::os::unix::ffi::OsStrExt;
        assert_eq!(shown(OsStr::from_bytes(b"a\xffb\n\xc3.crn")), r#""a\xffb\n\xc3.crn""#);
    }
}
