//! A socket that moves from the runtime of its handshake to the runtime that serves it.

use std::io::{Error, ErrorKind, IoSlice, Result};
use std::pin::Pin;
use std::task::{Context, Poll};
use tokio::io::{AsyncRead, AsyncWrite, ReadBuf};
use tokio::net::TcpStream;

/// A socket that belongs to a runtime, or one between two runtimes, which can neither be read nor written.
pub enum Socket {
    Here(TcpStream),
    Away(Option<std::net::TcpStream>),
}

impl Socket {
    /// Detaches it from its runtime.
    pub fn leave(&mut self) -> Result<()> {
        if let Socket::Here(stream) = std::mem::replace(self, Socket::Away(None)) {
            *self = Socket::Away(Some(stream.into_std()?));
        }
        Ok(())
    }

    /// Attaches it to the calling runtime.
    pub fn arrive(&mut self) -> Result<()> {
        if let Socket::Away(stream) = self {
            *self = Socket::Here(TcpStream::from_std(stream.take().ok_or_else(away)?)?);
        }
        Ok(())
    }

    fn here(self: Pin<&mut Self>) -> Result<Pin<&mut TcpStream>> {
        match self.get_mut() {
            Socket::Here(stream) => Ok(Pin::new(stream)),
            Socket::Away(_) => Err(away()),
        }
    }
}

fn away() -> Error {
    Error::from(ErrorKind::NotConnected)
}

impl AsyncRead for Socket {
    fn poll_read(
        self: Pin<&mut Self>,
        context: &mut Context<'_>,
        into: &mut ReadBuf<'_>,
    ) -> Poll<Result<()>> {
        self.here()?.poll_read(context, into)
    }
}

impl AsyncWrite for Socket {
    fn poll_write(self: Pin<&mut Self>, context: &mut Context<'_>, from: &[u8]) -> Poll<Result<usize>> {
        self.here()?.poll_write(context, from)
    }

    fn poll_write_vectored(
        self: Pin<&mut Self>,
        context: &mut Context<'_>,
        from: &[IoSlice<'_>],
    ) -> Poll<Result<usize>> {
        self.here()?.poll_write_vectored(context, from)
    }

    fn poll_flush(self: Pin<&mut Self>, context: &mut Context<'_>) -> Poll<Result<()>> {
        self.here()?.poll_flush(context)
    }

    fn poll_shutdown(self: Pin<&mut Self>, context: &mut Context<'_>) -> Poll<Result<()>> {
        self.here()?.poll_shutdown(context)
    }
}
