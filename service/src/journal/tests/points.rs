//! Points by number: each segment, and each sender's own file, defines its numbers.

use super::*;

/// A segment's records without watermarks and header: kind and bytes.
fn records_of(path: &Path) -> Vec<(u8, Vec<u8>)> {
    let number = path.file_stem().and_then(|stem| stem.to_str()?.parse().ok());
    let reader = records::Reader::open(&Disk::default(), path, Which::Journal, number.unwrap(), None);
    let (mut reader, _) = reader.unwrap();
    let mut found = Vec::new();
    while let records::Next::Record { kind, bytes, .. } = reader.next().unwrap() {
        found.push((kind, bytes));
    }
    found
}

fn kinds(path: &Path) -> Vec<u8> {
    records_of(path).into_iter().map(|(kind, _)| kind).collect()
}

fn of_letters(letters: &[u8]) -> Post {
    let mut points = Points::default();
    for letter in letters {
        points.push(u64::from(*letter), 5, 10, [7]);
    }
    Post { sender: "s".into(), foreign: 2, body: Body::Points(points) }
}

/// For each post what was read: the post, and the numbers that were defined with it.
fn read(journal: &Journal, first: u64) -> Vec<(Post, Vec<(u64, Bytes)>)> {
    let mut all = Vec::new();
    let posts = journal.posts(first, u64::MAX, |Replayed { post, named }| {
        all.push((post, named));
        true
    });
    posts.unwrap();
    all
}

fn names(numbers: &[u8], less: u8) -> Vec<(u64, Bytes)> {
    let name = |number: &u8| (u64::from(*number), vec![number - less].into());
    numbers.iter().map(name).collect()
}

#[test]
fn a_segment_says_a_name_once_ahead_of_its_first_points_and_by_the_same_write() {
    let folder = tempfile::tempdir().unwrap();
    let is_alone = Arc::new(AtomicBool::new(false));
    let sees = is_alone.clone();
    let disk = Disk::failing(move |call, path| {
        // A kill before this call would leave the definition alone.
        let name = || kinds(path).last() == Some(&NAME);
        sees.fetch_or(call == Call::Write && name(), SeqCst);
        Ok(())
    });
    let journal = open_on(&disk, folder.path(), Durability::Process).unwrap();
    for (letters, segment) in [(&b"abca"[..], 1), (b"cb", 1), (b"da", 1), (b"ab", 2), (b"ab", 2)] {
        if locked(&journal.shared.place).segment.number < segment {
            journal.roll();
        }
        let ticket = journal.append(&of_letters(letters), &Letters::of(""));
        journal.write(ticket).unwrap();
    }
    let expected: [(&[u8], &[u8]); 5] =
        [(b"abca", b"abc"), (b"cb", b""), (b"da", b"d"), (b"ab", b"ab"), (b"ab", b"")];
    let expected = expected.map(|(letters, named)| (of_letters(letters), names(named, 0)));
    assert_eq!(read(&journal, 1), expected);
    assert_eq!(read(&journal, 2), expected[3..]);
    kill(journal);
    assert!(!is_alone.load(SeqCst));
    assert_eq!(kinds(&segment::path(folder.path(), 1)), [NAME, NAME, NAME, POINTS, POINTS, NAME, POINTS]);
    assert_eq!(kinds(&segment::path(folder.path(), 2)), [NAME, NAME, POINTS, POINTS]);
    assert_eq!(records_of(&segment::path(folder.path(), 1))[0].1, [128 + 97, 32, 32, 32, 32 + 1, b'a']);
}

#[test]
fn requests_are_read_without_points() {
    let folder = tempfile::tempdir().unwrap();
    let journal = open(folder.path());
    let text = Post { sender: "s".into(), foreign: 0, body: Body::Text("{}".into()) };
    for post in [of_letters(b"ab"), text, of_letters(b"b"), of_letters(b"bc")] {
        journal.append(&post, &Letters::of(""));
    }
    let mut all = Vec::new();
    let read = journal.requests(1, u64::MAX, |Replayed { post, named }| {
        let text = match post.body {
            Body::Text(text) => Some(text),
            Body::Points(points) => {
                assert_eq!(points.count(), 0);
                None
            }
        };
        all.push((text, named));
        true
    });
    read.unwrap();
    let none = (None, Vec::new());
    let wanted = [(None, names(b"ab", 0)), (Some("{}".into()), Vec::new()), none, (None, names(b"c", 0))];
    assert_eq!(all, wanted);
}

#[test]
fn where_numbers_begin_anew_they_are_named_anew() {
    let folder = tempfile::tempdir().unwrap();
    let journal = open(folder.path());
    let (first, later) = (Letters::of(""), Letters::of("123"));
    let posts = [(b"ab", &first), (b"bc", &later), (b"ab", &first)];
    for (numbers, letters) in posts {
        journal.append(&of_letters(numbers), letters);
    }
    let expected = [(b"ab", 0), (b"bc", 1), (b"ab", 0)]
        .map(|(numbers, less)| (of_letters(numbers), names(numbers, less)));
    assert_eq!(read(&journal, 1), expected);
}

#[test]
fn points_without_a_name_are_refused_by_name() {
    let folder = tempfile::tempdir().unwrap();
    let journal = open(folder.path());
    journal.append(&of_letters(b"a"), &Letters::of(""));
    journal.roll();
    let mut record = Vec::new();
    record::put(&mut record, 5, &of_letters(b"a"));
    let at = locked(&journal.shared.place).segment.put(&record).unwrap();
    let fault = journal.posts(1, u64::MAX, |_| true).unwrap_err().to_string();
    let place = format!("000000000002.seg, byte {at}: has points of a series");
    assert!(fault.contains(&place), "{fault}");
}

/// The bytes of the format: a file that was written once stays readable.
#[test]
fn a_segment_and_a_file_of_a_sender_go_on_behind_these_bytes() {
    let folder = tempfile::tempdir().unwrap();
    let header = |which: u8, number: u64| {
        let mut header = Vec::new();
        let number = number.to_le_bytes();
        records::put(&mut header, 1, &[b"totxegun", &[1, 0, which], &number]);
        header
    };
    let record = |kind: u8, sender: &str, text: &[u8]| {
        let mut record = Vec::new();
        let numbers = [7, text.len() as u64, sender.len() as u64].map(u64::to_le_bytes);
        records::put(&mut record, kind, &[numbers.as_flattened(), sender.as_bytes(), text]);
        record
    };
    let held = [header(3, 0), record(16, "a", b"1234")].concat();
    let mut list = Vec::new();
    records::put(&mut list, 17, &[format!(r#"[["a",1,{}]]"#, held.len()).as_bytes()]);
    let segment = [header(1, 1), list, record(16, "b", b"12"), record(16, "a", b"123456")];
    std::fs::write(segment::path(folder.path(), 1), segment.concat()).unwrap();
    std::fs::write(folder.path().join("a.held"), held).unwrap();
    let journal = open(folder.path());
    parked::append_of(&journal, "a", "points");
    parked::append_of(&journal, "a", "point");
    let expected = [("a", "1234"), ("b", "12"), ("a", "123456"), ("a", "points"), ("a", "point")];
    let expected = expected.map(|(sender, text)| (sender.to_string(), text.to_string()));
    assert_eq!(parked::all_texts(&journal, 1), expected);
    // From now on its file has points.
    let next = parked::checkpoint(&journal, &parked::names(&["a"]), 1);
    journal.truncate_before(next).unwrap();
    let of_a = expected.into_iter().filter(|(sender, _)| sender == "a");
    assert_eq!(parked::all_texts(&journal, next), of_a.collect::<Vec<_>>());
}
