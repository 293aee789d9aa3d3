//! libpq's file of passwords: the one that `passfile` in the address names, else PGPASSFILE, else `~/.pgpass`.
//!
//! A line is `HOST:PORT:DATABASE:USER:PASSWORD`; each of the first four may be `*`, and a backslash escapes a colon or
//! a backslash. The first matching line counts. A file that others than its owner may read is not used.

use std::os::unix::fs::MetadataExt;
use std::path::{Path, PathBuf};
use std::sync::Once;
use tokio_postgres::config::Host;
use tokio_postgres::Config;

/// How the file names the server of a socket in the default folders.
const LOCAL: &str = "localhost";
const FOLDERS: [&str; 2] = ["/var/run/postgresql", "/tmp"];

/// Whether it was logged that others may read the file.
static TOLD: Once = Once::new();

/// The password for the first host of a connection, from the file that its address names or from the environment's.
pub(super) fn password(config: &Config, named: Option<&Path>) -> Option<String> {
    let file = named.map(Path::to_path_buf).or_else(file)?;
    let about = std::fs::metadata(&file).ok().filter(std::fs::Metadata::is_file)?;
    if about.mode() & 0o077 != 0 {
        TOLD.call_once(|| {
            let file = file.display();
            tracing::warn!(
                %file,
                "the file of passwords can be read by others than its owner, so it is not used: `chmod 0600` it"
            );
        });
        return None;
    }
    found(&std::fs::read_to_string(file).ok()?, config)
}

fn file() -> Option<PathBuf> {
    let named = std::env::var_os("PGPASSFILE").filter(|name| !name.is_empty());
    named.map(PathBuf::from).or_else(|| Some(Path::new(&std::env::var_os("HOME")?).join(".pgpass")))
}

/// The password of the first line that matches.
fn found(text: &str, config: &Config) -> Option<String> {
    let host = match config.get_hosts().first()? {
        Host::Tcp(host) => host.clone(),
        Host::Unix(folder) if FOLDERS.iter().any(|own| folder == Path::new(own)) => LOCAL.into(),
        Host::Unix(folder) => folder.to_str()?.into(),
    };
    let port = config.get_ports().first().map_or_else(|| "5432".into(), u16::to_string);
    let wanted: [&str; 4] = [&host, &port, config.get_dbname()?, config.get_user()?];
    let lines = text.lines().filter(|line| !line.starts_with('#'));
    lines.map(fields).find_map(|fields| {
        let [of @ .., password] = &fields[..] else { return None };
        let fits =
            of.len() == 4 && of.iter().zip(wanted).all(|(field, wanted)| field == "*" || field == wanted);
        fits.then(|| password.clone())
    })
}

/// The fields of a line; anything after the fifth is dropped.
fn fields(line: &str) -> Vec<String> {
    let (mut all, mut last) = (Vec::new(), String::new());
    let mut letters = line.chars();
    while let Some(letter) = letters.next() {
        match letter {
            ':' => all.push(std::mem::take(&mut last)),
            '\\' => last.extend(letters.next()),
            letter => last.push(letter),
        }
    }
    all.push(last);
    all.truncate(5);
    all
}

#[cfg(test)]
mod tests {
    use super::*;
    use crate::postgres::Server;

    #[test]
    fn the_first_line_that_fits_counts() {
        let text = "# a comment\nother:5432:d:u:no\nh:5433:d:u:of the port\nh:*:d:u:a\\:b\\\\c\n*:*:*:*:any\n/run/pg:*:*:u:no\n";
        let of = |rest: &str, text: &str| found(text, &Server::read(rest).expect(rest).config());
        for (rest, password) in [
            ("//u@h/d", "a:b\\c"),
            ("//u@h:5433/d", "of the port"),
            ("//v@h/d", "any"),
            ("//u@/d?host=/run/pg", "any"),
        ] {
            assert_eq!(of(rest, text).as_deref(), Some(password), "{rest}");
        }
        assert_eq!(of("//u@/d?host=/tmp", "/tmp:*:*:*:no\nlocalhost:*:*:*:yes").as_deref(), Some("yes"));
        for none in ["", "h:5432:d:u", "h:5432:d:other:no", "#h:5432:d:u:no"] {
            assert_eq!(of("//u@h/d", none), None, "{none}");
        }
    }
}
