//! JSON, as it is written.
use crate::names::plain;
use std::ffi::OsStr;
use std::fmt::Display;

/// A text; what is not plain in it by its number.
pub fn text(text: &str) -> String {
    let mut out = String::from("\"");
    for c in text.chars() {
        match c {
            '"' | '\\' => out.extend(['\\', c]),
            c if plain(c) => out.push(c),
            c => c.encode_utf16(&mut [0; 2]).iter().for_each(|unit| out += &format!("\\u{unit:04x}")),
        }
    }
    out + "\""
}

/// What there is, or `null`.
pub fn or_null(value: Option<impl Display>) -> String {
    value.map_or("null".into(), |value| value.to_string())
}

/// Fields with their values, without the braces around them.
pub fn fields(of: &[(&str, &dyn Display)]) -> String {
    of.iter().map(|(name, value)| format!("\"{name}\":{value}")).collect::<Vec<_>>().join(",")
}

/// A file's name as a field; where it is no UTF-8, with its bytes in a second one, so that nothing is lost.
pub fn file(name: &OsStr) -> String {
    let text = text(&name.to_string_lossy());
    let hex = || name.as_encoded_bytes().iter().map(|byte| format!("{byte:02x}")).collect::<String>();
    match name.to_str() {
        Some(_) => fields(&[("file", &text)]),
        None => fields(&[("file", &text), ("file_hex", &format!("\"{}\"", hex()))]),
    }
}

#[cfg(test)]
mod tests {
    use super::*;

    #[test]
    fn what_is_not_plain_goes_by_its_number() {
        assert_eq!(text("a\u{7f}\u{9b}\u{202e}\u{e0041}é\\\n\""), r#""a\u007f\u009b\u202e\udb40\udc41é\\\u000a\"""#);
    }

    #[cfg(unix)]
    #[test]
    fn a_name_that_is_no_text_has_its_bytes_beside_it() {
        use std::os::unix::ffi::OsStrExt;
        let name = OsStr::from_bytes(b"a\xffb\n\xc3.crn");
        assert_eq!(file(name), "\"file\":\"a\u{fffd}b\\u000a\u{fffd}.crn\",\"file_hex\":\"61ff620ac32e63726e\"");
        assert_eq!(file(OsStr::new("a\"b")), r#""file":"a\"b""#);
    }
}
