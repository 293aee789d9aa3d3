//! Tests tokens on the command line: they are made, given, and never shown again.

use super::totxegun;

/// `totxegun token NAME 2> FILE` makes such a file.
#[test]
fn a_file_of_more_than_a_token_is_refused_without_showing_it() {
    let at = tempfile::tempdir().unwrap();
    let file = at.path().join("token");
    let words = ["flush", "--admin", "127.0.0.1:1", "--token", file.to_str().unwrap()];
    for text in ["the token of ann, which nothing shows again:\ns3cret\n", "s3cret s3cret", " \n"] {
        std::fs::write(&file, text).unwrap();
        let output = totxegun(&words);
        let said = String::from_utf8_lossy(&output.stderr).into_owned();
        let is_told = said.contains("a token and nothing else") && !said.contains("s3cret");
        assert!(output.status.code() == Some(1) && is_told, "{said}");
    }
}

#[test]
fn a_token_is_also_an_operators() {
    let help = String::from_utf8(totxegun(&["token", "--help"]).stdout).unwrap();
    assert!(help.contains("--tokens") && help.contains("--admin-tokens"), "{help}");
}
