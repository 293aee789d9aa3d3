//! Options of a store that several machines share.

use super::{store::copies, values::place};
use crate::service::StoreSettings as Settings;
use crate::shard::is_sender;
use crate::sink::Address;
use crate::store::postgres::{address, Server};
use crate::tls::{Files, Named};
use anyhow::{anyhow, bail};
use clap::{value_parser, Args};
use std::path::PathBuf;

#[derive(Args)]
#[command(next_help_heading = "Options of a store that several machines share")]
pub(super) struct StoreOptions {
    /// Keeps everything in PostgreSQL, postgres://USER@HOST:PORT/DB, made by `store init`, and shares it with other instances: --data then has only this machine's socket and record of actions
    #[arg(long, env = "TOTXEGUN_STORE", value_name = "ADDRESS", hide_env_values = true, value_parser = address, requires_all = ["instance", "peer"])]
    store: Option<Server>,
    /// This instance's name, which no other instance has
    #[arg(long, env = "TOTXEGUN_INSTANCE", value_name = "NAME", value_parser = name, requires = "store")]
    instance: Option<String>,
    /// The address to which other instances send posts, HOST:PORT, by the name that they reach it by
    #[arg(long, env = "TOTXEGUN_PEER", value_name = "ADDRESS", value_parser = place, requires = "store")]
    peer: Option<String>,
    /// Root certificates in PEM: instances speak TLS with each other, and each shows a certificate that one of these has signed, for the host of its --peer
    #[arg(long, env = "TOTXEGUN_PEER_CA", value_name = "FILE", requires = "store")]
    peer_ca: Option<PathBuf>,
    /// The certificate that this instance shows other instances, in PEM [default: that of --tls-cert]
    #[arg(long, env = "TOTXEGUN_PEER_CERT", value_name = "FILE", requires_all = ["peer_key", "peer_ca"])]
    peer_cert: Option<PathBuf>,
    /// The key of --peer-cert in PEM
    #[arg(long, env = "TOTXEGUN_PEER_KEY", value_name = "FILE", requires = "peer_cert")]
    peer_key: Option<PathBuf>,
    /// Takes posts of other instances beyond loopback without TLS: for a network that nobody else can reach or read
    #[arg(long, env = "TOTXEGUN_PEER_PLAIN")]
    peer_plain: bool,
    /// On how many servers an answered post has to be: 2 needs a synchronous standby, at the start and with each write, and without it posts get 503; with 1, what only one server had is lost with it
    #[arg(long, env = "TOTXEGUN_STORE_COPIES", value_name = "N", default_value_t = 2, value_parser = value_parser!(u8).range(1..=2))]
    store_copies: u8,
}

fn name(text: &str) -> Result<String, String> {
    match is_sender(text) {
        true => Ok(text.into()),
        false => Err("a name has 1 to 64 letters, digits, `.`, `_` and `-`".into()),
    }
}

impl StoreOptions {
    pub fn is_given(&self) -> bool {
        self.store.is_some()
    }

    /// The settings of a store. None if everything is in a folder. `pair` is the certificate and key that senders are
    /// shown.
    pub fn settings(
        self,
        reading: String,
        sink: &Address,
        pair: Option<(PathBuf, PathBuf)>,
    ) -> anyhow::Result<Option<Settings>> {
        self.check_plain()?;
        let peer_tls = self.peer_tls(pair)?;
        let (Some(store), Some(instance), Some(peer)) = (self.store, self.instance, self.peer) else {
            return Ok(None);
        };
        if matches!(sink, Address::Sqlite(_)) {
            bail!("a SQLite file is one machine's: give --sink postgres://.. or http://.. beside --store");
        }
        Ok(Some(Settings {
            database: store,
            copies: copies(self.store_copies),
            instance,
            peer,
            peer_tls,
            peer_plain: self.peer_plain,
            reading,
        }))
    }

    /// Looks at the value, since settings may say that it is false.
    fn check_plain(&self) -> anyhow::Result<()> {
        if self.peer_plain && !self.is_given() {
            bail!("--peer-plain is for instances of a store: give --store, or leave it out");
        }
        if self.peer_plain && self.peer_ca.is_some() {
            bail!("instances speak TLS by --peer-ca, or none by --peer-plain: give one of them");
        }
        Ok(())
    }

    /// The files of TLS between instances, if they use it.
    fn peer_tls(&self, pair: Option<(PathBuf, PathBuf)>) -> anyhow::Result<Option<Files>> {
        let Some(ca) = self.peer_ca.clone() else {
            return Ok(None);
        };
        let own = self.peer_cert.clone().zip(self.peer_key.clone());
        let (of_pair, pair) = match own {
            Some(own) => (["--peer-cert", "--peer-key"], own),
            None => {
                let pair = pair.ok_or_else(|| {
                    anyhow!("--peer-ca needs a certificate to show the others: give --peer-cert and --peer-key, or --tls-cert and --tls-key")
                })?;
                (["--tls-cert", "--tls-key"], pair)
            }
        };
        Ok(Some(Files {
            named: Named { certificate: of_pair[0], key: of_pair[1], roots: "--peer-ca" },
            certificate: pair.0,
            key: pair.1,
            client_ca: Some(ca),
        }))
    }
}

#[cfg(test)]
mod tests {
    use super::*;
    use clap::Parser;

    #[derive(Parser)]
    struct Line {
        #[command(flatten)]
        store_options: StoreOptions,
    }

    fn settings(words: &str) -> Result<Option<Settings>, String> {
        let words = ["serve"].into_iter().chain(words.split_whitespace());
        let store_options = Line::try_parse_from(words).unwrap().store_options;
        let sink = Address::Sqlite("metrics.db".into());
        let settings = store_options.settings(String::new(), &sink, None);
        settings.map_err(|why| why.to_string())
    }

    #[test]
    fn without_tls_there_is_a_store_and_no_roots() {
        const STORE: &str = "--store postgres://u@h/d --instance a --peer h:1";
        let refused = |words: &str| settings(words).err().unwrap();
        assert!(refused("--peer-plain").contains("give --store"));
        assert!(refused(&format!("{STORE} --peer-plain --peer-ca c")).contains("--peer-ca"));
        assert!(refused(&format!("{STORE} --peer-plain")).contains("SQLite"), "that passes");
        assert!(settings("").unwrap().is_none());
    }
}
