//! Tests where settings come from, and what is said of those that can't be used.

use super::*;
use clap::Arg;

/// A value that is not the option's default.
fn sample(option: &str, arg: &Arg) -> String {
    let value = arg.get_value_names().and_then(|names| names.first()).map(ToString::to_string);
    let value = value.unwrap_or_default();
    let default = arg.get_default_values().first().map(|it| it.to_string_lossy().into_owned());
    let one_of = arg.get_possible_values();
    let other = one_of.iter().map(|it| it.get_name()).find(|it| Some(*it) != default.as_deref());
    match (option, &*value, other) {
        (_, _, Some(other)) if arg.get_action().takes_values() => other.into(),
        ("sink" | "forward-unsupported", ..) => "http://h:1/p".into(),
        ("store", ..) => "postgres://u@h/d".into(),
        ("integer-unit", ..) => "s=ms".into(),
        ("exponential", ..) => "1,2".into(),
        ("max-age", ..) => "7h".into(),
        (_, "ADDRESS", _) => "127.0.0.1:1".into(),
        (_, "TIME", _) => "7h".into(),
        (_, "BYTES", _) => "65MiB".into(),
        (_, "N", _) => "1".into(),
        (_, "ATTRIBUTE" | "NAME" | "FILE" | "DIR", _) => "some.name".into(),
        _ => panic!("no sample of --{option} {value}"),
    }
}

/// A file that has each option once, and the values that it gives.
fn each_once() -> (String, Values) {
    let command = Line::command();
    let serve = command.find_subcommand("serve").unwrap();
    let (mut top, mut sink, mut values) = (String::new(), String::from("[sink]\n"), Values::new());
    for (option, arg) in file::settings(serve) {
        let is_flag = !arg.get_action().takes_values();
        let value = if is_flag { "true".to_string() } else { sample(option, arg) };
        let written = match arg.get_action() {
            clap::ArgAction::Append => format!("[\"{value}\"]"),
            _ if is_flag || value == "1" => value.clone(),
            _ => format!("\"{value}\""),
        };
        let key = key(option);
        match key.strip_prefix("sink.") {
            Some(key) => sink += &format!("{key} = {written}\n"),
            None => top += &format!("{key} = {written}\n"),
        }
        values.insert(option.into(), vec![value.into()]);
    }
    (top + &sink, values)
}

fn parsed(words: &[&str]) -> Result<Parsed, String> {
    parse(words.iter().map(OsString::from).collect()).map_err(|why| match why {
        Faulty::Line(error) => error.to_string(),
        Faulty::File(why) => why,
    })
}

#[test]
fn a_file_may_have_each_option_once() {
    let folder = tempfile::tempdir().unwrap();
    let path = folder.path().join("s.toml");
    let (text, wanted) = each_once();
    std::fs::write(&path, &text).unwrap();
    let path = path.to_str().unwrap();
    let parsed = parsed(&["totxegun", "serve", "--config", path]).unwrap();
    assert!(wanted.len() > 50, "{text}");
    assert_eq!(values(&parsed), wanted);
    let shown = shown(&parsed).unwrap();
    let of_file = |line: &&str| line.ends_with(path);
    assert_eq!(shown.lines().filter(of_file).count(), wanted.len(), "{shown}");
    // What is shown is again a file with the same settings.
    assert_eq!(shown.parse::<toml::Value>().unwrap(), text.parse::<toml::Value>().unwrap());
}

/// The environment is tested with the program, which has one of its own.
#[test]
fn the_command_line_comes_before_the_file() {
    let folder = tempfile::tempdir().unwrap();
    let path = folder.path().join("s.toml");
    std::fs::write(&path, "data = \"d\"\nthreads = 2\ndrop-attribute = [\"a\", \"b\"]\nlog-json = true\n")
        .unwrap();
    let config = format!("--config={}", path.display());
    let words = ["totxegun", "serve", "--threads=3", &config, "--drop-attribute", "c"];
    let parsed = parsed(&words).unwrap();
    let found = values(&parsed);
    for (option, wanted) in [("data", "d"), ("threads", "3"), ("drop-attribute", "c"), ("log-json", "true")] {
        assert_eq!(found[option], [wanted], "{option}");
    }
    let shown = shown(&parsed).unwrap();
    let file = path.display();
    for line in [
        "threads = 3 # command line".to_string(),
        format!("data = \"d\" # {file}"),
        "flush-interval = \"10s\" # default".into(),
        "# store is not set".into(),
    ] {
        assert!(shown.lines().any(|it| it == line), "{line} in {shown}");
    }
}

#[test]
fn a_fault_is_said_with_its_file() {
    let folder = tempfile::tempdir().unwrap();
    let path = folder.path().join("s.toml");
    let said = |text: &str| {
        std::fs::write(&path, text).unwrap();
        let path = path.to_str().unwrap();
        let why = parsed(&["totxegun", "serve", "--data", "d", "--config", path]).err().unwrap();
        why.strip_prefix(&format!("{path}: ")).unwrap_or_else(|| panic!("{why}")).to_string()
    };
    assert_eq!(
        said("flush-interval = \"ten\""),
        "`flush-interval`: write a whole number and ms, s, m, h or d: 10s"
    );
    assert!(
        said("[sink]\naddress = \"nats://h\"").starts_with("`sink.address`: `nats:` is not a kind of sink")
    );
    assert!(said("durability = \"never\"").starts_with("`durability`: "));
    let none = parsed(&["totxegun", "serve", "--config", "/none"]).err().unwrap();
    assert!(none.starts_with("--config /none can't be read: "), "{none}");
}

/// Settings that a command does not have are left out.
#[test]
fn explain_has_the_settings_of_reading() {
    let folder = tempfile::tempdir().unwrap();
    let path = folder.path().join("s.toml");
    std::fs::write(&path, "threads = 2\ninteger-unit = [\"s=ms\"]\n").unwrap();
    let parsed = parsed(&["totxegun", "explain", "-", "--config", path.to_str().unwrap()]).unwrap();
    let (_, matches) = parsed.matches.subcommand().unwrap();
    let units: Vec<_> = matches.get_raw("integer_unit").unwrap().collect();
    assert_eq!(units, ["s=ms"]);
    assert!(super::tests::parsed(&["totxegun", "status", "--config", "/none"])
        .err()
        .unwrap()
        .contains("--config"));
}
