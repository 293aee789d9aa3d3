//! Options of an OTLP sink and of `--forward-unsupported`: the form of requests, their headers, and the files of TLS.

use super::serve::absolute;
use crate::metrics::Metrics;
use crate::passthrough::Passthrough;
use crate::sink::{header_of, Access, Address, ClientFiles};
use anyhow::bail;
use clap::Args;
use std::path::PathBuf;
use std::sync::Arc;

#[derive(Args)]
#[command(next_help_heading = "Options of an OTLP sink")]
pub struct SinkOptions {
    /// Sends protobuf instead of JSON
    #[arg(long, env = "TOTXEGUN_SINK_PROTOBUF")]
    sink_protobuf: bool,
    /// Packs requests by gzip
    #[arg(long, env = "TOTXEGUN_SINK_GZIP")]
    sink_gzip: bool,
    /// A header of each request; may be given again, in the environment on lines of their own
    #[arg(long = "sink-header", env = "TOTXEGUN_SINK_HEADER", value_name = "NAME: VALUE", hide_env_values = true, value_delimiter = '\n', value_parser = header)]
    sink_headers: Vec<(String, String)>,
    /// A file with headers of each request, one on a line. It is read anew for each request, so that tokens can be renewed
    #[arg(long, env = "TOTXEGUN_SINK_HEADER_FILE", value_name = "FILE")]
    sink_header_file: Option<PathBuf>,
    /// Root certificates in PEM by which the sink is trusted, instead of the machine's
    #[arg(long, env = "TOTXEGUN_SINK_CA", value_name = "FILE")]
    sink_ca: Option<PathBuf>,
    /// The certificate to show to the sink, in PEM, with those between it and a root
    #[arg(long, env = "TOTXEGUN_SINK_CERT", value_name = "FILE", requires = "sink_key")]
    sink_cert: Option<PathBuf>,
    /// The key of --sink-cert in PEM
    #[arg(long, env = "TOTXEGUN_SINK_KEY", value_name = "FILE", requires = "sink_cert")]
    sink_key: Option<PathBuf>,
}

#[derive(Args)]
#[command(next_help_heading = "Options of --forward-unsupported")]
pub struct PassthroughOptions {
    /// Sends points outside the profile to another OTLP receiver, http://HOST:PORT or https://HOST, at most once; so they are no fault
    #[arg(long, env = "TOTXEGUN_FORWARD_UNSUPPORTED", value_name = "ADDRESS", hide_env_values = true)]
    forward_unsupported: Option<String>,
    /// Like --sink-header-file, for that receiver
    #[arg(long, env = "TOTXEGUN_FORWARD_UNSUPPORTED_HEADER_FILE", value_name = "FILE")]
    forward_unsupported_header_file: Option<PathBuf>,
    /// Like --sink-ca, for that receiver
    #[arg(long, env = "TOTXEGUN_FORWARD_UNSUPPORTED_CA", value_name = "FILE")]
    forward_unsupported_ca: Option<PathBuf>,
    /// Like --sink-cert, for that receiver
    #[arg(
        long,
        env = "TOTXEGUN_FORWARD_UNSUPPORTED_CERT",
        value_name = "FILE",
        requires = "forward_unsupported_key"
    )]
    forward_unsupported_cert: Option<PathBuf>,
    /// The key of --forward-unsupported-cert in PEM
    #[arg(
        long,
        env = "TOTXEGUN_FORWARD_UNSUPPORTED_KEY",
        value_name = "FILE",
        requires = "forward_unsupported_cert"
    )]
    forward_unsupported_key: Option<PathBuf>,
}

impl SinkOptions {
    /// Adds these options to the address of an OTLP sink. For another sink they are a mistake.
    pub fn put_into(self, sink: Address) -> anyhow::Result<Address> {
        let tls = ClientFiles { roots: self.sink_ca, certificate: self.sink_cert, key: self.sink_key };
        let access = Access { tls, headers: self.sink_header_file };
        let (protobuf, gzip, headers) = (self.sink_protobuf, self.sink_gzip, self.sink_headers);
        let is_given = protobuf || gzip || !headers.is_empty() || access != Access::default();
        match sink {
            Address::Otlp { url, .. } => Ok(Address::Otlp { url, protobuf, gzip, headers, access }),
            Address::Sqlite(_) | Address::Postgres(_) if is_given => {
                bail!("--sink-protobuf, --sink-gzip, --sink-header, --sink-ca and those beside them are for a sink of OTLP: give --sink http://.. too")
            }
            Address::Sqlite(path) => Ok(Address::Sqlite(absolute(&path)?)),
            Address::Postgres(server) => Ok(Address::Postgres(server)),
        }
    }
}

impl PassthroughOptions {
    pub fn pass(self, listen: &str, metrics: &Arc<Metrics>) -> anyhow::Result<Option<Arc<Passthrough>>> {
        let tls = ClientFiles {
            roots: self.forward_unsupported_ca,
            certificate: self.forward_unsupported_cert,
            key: self.forward_unsupported_key,
        };
        let access = Access { tls, headers: self.forward_unsupported_header_file };
        let Some(address) = self.forward_unsupported else {
            match access == Access::default() {
                true => return Ok(None),
                false => {
                    bail!("--forward-unsupported-ca and those beside it are for --forward-unsupported: give that too, or leave them out")
                }
            }
        };
        let pass = Passthrough::to(&address, access, metrics.clone())?;
        if pass.is_to(listen) {
            bail!(
                "--forward-unsupported is the address where senders post: points would come again for ever"
            );
        }
        Ok(Some(pass))
    }
}

fn header(text: &str) -> Result<(String, String), String> {
    let (name, value) = text.split_once(':').ok_or("write a name, a colon and a value")?;
    let (name, value) = (name.trim(), value.trim());
    header_of(name, value).map_err(|why| why.to_string())?;
    Ok((name.to_string(), value.to_string()))
}
