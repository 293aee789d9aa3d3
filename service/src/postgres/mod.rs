//! Connections to a PostgreSQL: what the sink and the store share.

mod address;
mod connection;
mod identity;
mod passfile;
mod server_error;
mod tls;

pub use address::Server;
pub(crate) use connection::{connect, Driver, NotConnected, Warnings};
pub(crate) use identity::identity;
pub(crate) use server_error::shown;
