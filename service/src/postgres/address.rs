//! The address of a PostgreSQL server: its hosts, the user, and the options that libpq has in a URL.

use super::passfile;
use crate::sink::roots::{self, ClientFiles, NoRoots};
use rustls::ClientConfig;
use std::path::PathBuf;
use std::str::FromStr;
use std::time::Duration;
use tokio_postgres::config::{ChannelBinding, Host, SslMode, TargetSessionAttrs};
use tokio_postgres::Config;

/// How long connecting may take.
const CONNECT: Duration = Duration::from_secs(5);
const PORT: u16 = 5432;
/// After this silence of a connection, TCP probes whether the other end is there.
const KEEPALIVE: Duration = Duration::from_secs(30);

/// A server's address. Its `Debug` shows no password.
#[derive(Clone, Debug, PartialEq, Eq)]
pub struct Server {
    config: Config,
    tls: ClientFiles,
    /// The file of passwords, if the address names one.
    passfile: Option<PathBuf>,
}

impl Server {
    /// Parses what follows `postgres:`. An error quotes nothing of the address, which may contain a password.
    pub(crate) fn read(rest: &str) -> Result<Server, String> {
        let server = Server::read_hosts(rest)?;
        match server.config.get_hosts() {
            [_] => Ok(server),
            _ => Err("there is more than one host, and two servers would count separately: give one".into()),
        }
    }

    /// The same for one or more hosts that replicate each other, of which one accepts writes.
    pub(crate) fn read_hosts(rest: &str) -> Result<Server, String> {
        if !rest.starts_with("//") {
            return Err("`//` is missing: write postgres://USER@HOST:PORT/DB".into());
        }
        let (written, tls, passfile) = without_files(rest)?;
        let mut config = Config::from_str(&written).map_err(|error| error.to_string())?;
        if config.get_user().is_none() {
            return Err("there is no user: write postgres://USER@HOST:PORT/DB".into());
        }
        if config.get_dbname().is_none_or(str::is_empty) {
            return Err("there is no database: write postgres://USER@HOST:PORT/DB".into());
        }
        check_hosts(&config)?;
        if config.get_channel_binding() == ChannelBinding::Require {
            return Err("`channel_binding=require` is not supported: leave it out".into());
        }
        if config.get_ssl_mode() != SslMode::Require {
            config.ssl_mode(SslMode::Disable);
            if !tls.is_empty() {
                return Err("`sslrootcert`, `sslcert` and `sslkey` are for TLS: add `sslmode=require`".into());
            }
        }
        if config.get_application_name().is_none() {
            config.application_name("totxegun");
        }
        if !rest.contains("keepalives_idle=") {
            config.keepalives_idle(KEEPALIVE);
        }
        if config.get_connect_timeout().is_none() {
            config.connect_timeout(CONNECT);
        }
        Ok(Server { config, tls, passfile })
    }

    /// Hosts and database, without the user.
    pub(crate) fn place(&self) -> String {
        let ports = self.config.get_ports();
        let place = |(number, host): (usize, &Host)| {
            let host = match host {
                Host::Tcp(host) => host.clone(),
                Host::Unix(folder) => folder.display().to_string(),
            };
            let port = ports.get(number).or(ports.first()).copied().unwrap_or(PORT);
            format!("{host}:{port}")
        };
        let places: Vec<String> = self.config.get_hosts().iter().enumerate().map(place).collect();
        format!("{}/{}", places.join(","), self.config.get_dbname().unwrap_or_default())
    }

    pub(super) fn wants_tls(&self) -> bool {
        self.config.get_ssl_mode() == SslMode::Require
    }

    pub(super) fn client_config(&self) -> Result<ClientConfig, NoRoots> {
        self.tls.client_config()
    }

    /// The configuration, with the password of the environment or of the file of passwords if the address has none.
    pub(crate) fn config(&self) -> Config {
        self.with_password(self.config.clone())
    }

    /// Adds the password to the configuration of one host.
    fn with_password(&self, mut config: Config) -> Config {
        if config.get_password().is_some() {
            return config;
        }
        if let Some(password) = std::env::var_os("PGPASSWORD") {
            config.password(password.as_encoded_bytes());
        } else if let Some(password) = passfile::password(&config, self.passfile.as_deref()) {
            config.password(password);
        }
        config
    }

    /// The configuration for each host alone, which connects only if that host accepts writes. So each host has a
    /// timeout of its own.
    pub(crate) fn each_host(&self) -> Vec<Config> {
        let all = &self.config;
        let ports = all.get_ports();
        let one = |(number, host): (usize, &Host)| {
            let mut config = Config::new();
            match host {
                Host::Tcp(host) => config.host(host),
                Host::Unix(folder) => config.host_path(folder),
            };
            config.port(ports.get(number).or(ports.first()).copied().unwrap_or(PORT));
            all.get_user().map(|user| config.user(user));
            all.get_password().map(|password| config.password(password));
            all.get_dbname().map(|name| config.dbname(name));
            all.get_options().map(|options| config.options(options));
            all.get_application_name().map(|name| config.application_name(name));
            all.get_connect_timeout().map(|limit| config.connect_timeout(*limit));
            config
                .ssl_mode(all.get_ssl_mode())
                .channel_binding(all.get_channel_binding())
                .keepalives(all.get_keepalives())
                .keepalives_idle(all.get_keepalives_idle())
                .target_session_attrs(TargetSessionAttrs::ReadWrite);
            self.with_password(config)
        };
        all.get_hosts().iter().enumerate().map(one).collect()
    }
}

/// Takes the options out of the address that only this code handles: the files of TLS, and that of passwords. The
/// library knows `require` alone.
fn without_files(rest: &str) -> Result<(String, ClientFiles, Option<PathBuf>), String> {
    let (place, query) = rest.split_once('?').unwrap_or((rest, ""));
    let (mut tls, mut passfile, mut others) = (ClientFiles::default(), None, Vec::new());
    for pair in query.split('&') {
        let (name, value) = pair.split_once('=').unwrap_or((pair, ""));
        match (name, value) {
            // The certificate is verified in either case.
            ("sslmode", "verify-full") => others.push("sslmode=require"),
            ("sslmode", "prefer" | "allow") => return Err(
                "`sslmode=prefer` and `allow` use no TLS if the server has none: write `sslmode=require` or \
                    `disable`"
                    .into(),
            ),
            ("sslrootcert", "system") => {}
            ("sslrootcert", file) => tls.roots = Some(path(file)?),
            ("sslcert", file) => tls.certificate = Some(path(file)?),
            ("sslkey", file) => tls.key = Some(path(file)?),
            ("passfile", file) => passfile = Some(path(file)?),
            _ => others.push(pair),
        }
    }
    match tls.certificate.is_some() == tls.key.is_some() {
        true => Ok((format!("postgres:{place}?{}", others.join("&")), tls, passfile)),
        false => Err("`sslcert` and `sslkey` go together: name both files".into()),
    }
}

fn path(written: &str) -> Result<PathBuf, String> {
    let text = percent_encoding::percent_decode_str(written).decode_utf8();
    let text = text.ok().filter(|text| !text.is_empty());
    text.map(|text| PathBuf::from(&*text))
        .ok_or_else(|| "a file that it names is not named in UTF-8: rename the file".into())
}

/// Checks that each host can have the TLS that is asked for.
fn check_hosts(config: &Config) -> Result<(), &'static str> {
    let wants_tls = config.get_ssl_mode() == SslMode::Require;
    let check = |host: &Host| match host {
        Host::Unix(_) if wants_tls => Err("a Unix socket has no TLS: leave `sslmode` out"),
        Host::Tcp(host) if wants_tls && !roots::is_name(host) => Err(roots::NO_NAME),
        _ => Ok(()),
    };
    match config.get_hosts() {
        [] => Err("there is no host: write postgres://USER@HOST:PORT/DB"),
        hosts => hosts.iter().try_for_each(check),
    }
}

impl std::fmt::Display for Server {
    fn fmt(&self, formatter: &mut std::fmt::Formatter<'_>) -> std::fmt::Result {
        write!(formatter, "{}@{}", self.config.get_user().unwrap_or_default(), self.place())
    }
}

#[cfg(test)]
mod tests {
    use super::*;

    #[test]
    fn addresses_are_shown_without_a_password() {
        for (rest, shown) in [
            ("//u@h/d", "u@h:5432/d"),
            ("//u:secret@h:5433/d", "u@h:5433/d"),
            ("//u@/d?host=/run/pg", "u@/run/pg:5432/d"),
            ("//u@/d?host=/run/pg&port=5433&sslmode=disable", "u@/run/pg:5433/d"),
            ("//u:secret@h/d?sslmode=require&sslrootcert=%2Fa%20b&sslcert=c&sslkey=k", "u@h:5432/d"),
            ("//u:secret@h/d?sslrootcert=system&sslmode=verify-full", "u@h:5432/d"),
            ("//u@%2Frun%2Fpg/d?sslmode=disable", "u@/run/pg:5432/d"),
            ("//u:secret@h/d?sslmode=require", "u@h:5432/d"),
            ("//u:secret@h/d?sslmode=verify-full", "u@h:5432/d"),
        ] {
            let server = Server::read(rest).expect(rest);
            assert_eq!(server.to_string(), shown);
            assert!(!format!("{server:?}").contains("secret"));
        }
    }

    #[test]
    fn each_host_of_several_is_come_to_as_the_address_says() {
        let rest = "//u:secret@h1:5433,h2:5434/d?application_name=shop&keepalives_idle=7&connect_timeout=3";
        let server = Server::read_hosts(rest).expect(rest);
        assert_eq!(server.to_string(), "u@h1:5433,h2:5434/d");
        let each = server.each_host();
        let [one, other] = &each[..] else { panic!("{each:?}") };
        for (config, host, port) in [(one, "h1", 5433), (other, "h2", 5434)] {
            assert_eq!(config.get_hosts(), [Host::Tcp(host.into())]);
            assert_eq!(config.get_ports(), [port]);
            assert_eq!(config.get_password(), Some(&b"secret"[..]));
            assert_eq!(config.get_application_name(), Some("shop"));
            assert_eq!(config.get_keepalives_idle(), Duration::from_secs(7));
            assert_eq!(config.get_connect_timeout(), Some(&Duration::from_secs(3)));
            assert_eq!(config.get_target_session_attrs(), TargetSessionAttrs::ReadWrite);
        }
        let same_port = Server::read_hosts("//u@h1,h2:5433/d?sslmode=require").expect("two hosts");
        assert_eq!(same_port.each_host().len(), 2);
        let error = Server::read_hosts("//u@h1,127.0.0.1/d?sslmode=require").expect_err("no name");
        assert!(error.contains("name of a host"), "{error}");
    }

    #[test]
    fn the_files_of_tls_are_read_as_they_are_written() {
        let server =
            Server::read("//u@h/d?sslmode=require&sslrootcert=%2Fa%20b&sslcert=c&sslkey=k").expect("one");
        let file = |name: &str| Some(PathBuf::from(name));
        assert_eq!(server.tls, ClientFiles { roots: file("/a b"), certificate: file("c"), key: file("k") });
    }

    #[test]
    fn a_file_of_passwords_is_that_of_its_address() {
        let folder = tempfile::tempdir().unwrap();
        let file = folder.path().join("passwords");
        std::fs::write(&file, "h:*:*:u:of the file\n").unwrap();
        std::fs::set_permissions(&file, std::os::unix::fs::PermissionsExt::from_mode(0o600)).unwrap();
        let password =
            |rest: &str| Server::read(rest).expect(rest).config().get_password().map(<[u8]>::to_vec);
        assert_eq!(password(&format!("//u@h/d?passfile={}", file.display())), Some(b"of the file".to_vec()));
        assert_eq!(password("//u:own@h/d?passfile=/none"), Some(b"own".to_vec()));
        assert_eq!(password("//u@h/d?passfile=/none"), None);
    }

    #[test]
    fn what_an_address_says_counts() {
        let config = |rest| Server::read(rest).expect(rest).config();
        let own = config("//u@127.0.0.1/d");
        assert_eq!(own.get_application_name(), Some("totxegun"));
        assert_eq!(own.get_keepalives_idle(), KEEPALIVE);
        let asked = config("//u@h/d?application_name=shop&keepalives_idle=7");
        assert_eq!(asked.get_application_name(), Some("shop"));
        assert_eq!(asked.get_keepalives_idle(), Duration::from_secs(7));
    }

    #[test]
    fn faulty_addresses_say_why_and_show_nothing() {
        for (rest, part) in [
            ("u@h/d", "`//`"),
            ("//h/d", "no user"),
            ("//u:secret@h", "no database"),
            ("//u:secret@/d", "no host"),
            ("//u:secret@h1,h2/d", "more than one"),
            ("//u:secret@h/d?sslmode=verify-ca", "sslmode"),
            ("//u:secret@h/d?sslmode=prefer", "`sslmode=prefer`"),
            ("//u:secret@h/d?sslmode=allow", "`sslmode=prefer` and `allow`"),
            ("//u:secret@h/d?sslrootcert=/a", "add `sslmode=require`"),
            ("//u:secret@h/d?sslmode=require&sslcert=/a", "`sslkey`"),
            ("//u:secret@h/d?sslmode=require&sslrootcert=", "not named in UTF-8"),
            ("//u@/d?host=/run/pg&sslmode=require", "no TLS"),
            ("//u:secret@h:x/d", "port"),
            ("//u:secret@127.0.0.1/d?sslmode=require", "name of a host"),
            ("//u:secret@[::1]/d?sslmode=verify-full", "name of a host"),
            ("//u:secret@h/d?channel_binding=require", "channel_binding"),
        ] {
            let error = Server::read(rest).expect_err(rest);
            assert!(error.contains(part) && !error.contains("secret"), "{rest}: {error}");
        }
    }
}
