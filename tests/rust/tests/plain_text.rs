//! The plain Rust of the text form on texts with known answers. It is what the library's text entries and the pair program are compared with.

use crankforest_tests::{plain_text, texts};

fn shown(text: &[u8]) -> String {
    String::from_utf8_lossy(&text[..text.len().min(200)]).into_owned()
}

#[test]
fn known_texts() {
    for (text, written) in texts::known() {
        let output = plain_text::pairs(&text);
        assert_eq!(String::from_utf8_lossy(&output), written, "{:?}", shown(&text));
    }
}

#[test]
fn known_separations() {
    for (text, s, t, number) in texts::known_separations() {
        assert_eq!(plain_text::separation(&text, s, t), number, "s = {}, t = {}, {:?}", s, t, shown(&text));
    }
}

#[test]
fn the_longest_text_has_32_768_bytes() {
    assert_eq!(texts::longest().len(), 32_768);
}
