//! TLS of sessions of PostgreSQL, where its address says `sslmode=require`: the server shows a
//! certificate of its host, of an authority that the system trusts (or the file SSL_CERT_FILE).

use openssl::error::ErrorStack;
use openssl::ssl::{ConnectConfiguration, SslConnector, SslMethod};
use std::future::Future;
use std::io;
use std::pin::Pin;
use std::task::{Context, Poll};
use tokio::io::{AsyncRead, AsyncWrite, ReadBuf};
use tokio_openssl::SslStream;
use tokio_postgres::tls::{ChannelBinding, MakeTlsConnect, TlsConnect, TlsStream};

/// What makes TLS of sessions.
#[derive(Clone)]
pub struct Secured(SslConnector);

/// What makes TLS of one.
pub struct Session(ConnectConfiguration, String);

/// A session over TLS.
pub struct Stream<S>(SslStream<S>);

type Connected<S> = Pin<Box<dyn Future<Output = io::Result<Stream<S>>> + Send>>;

impl Secured {
    pub fn new() -> Result<Secured, ErrorStack> {
        Ok(Secured(SslConnector::builder(SslMethod::tls_client())?.build()))
    }
}

impl<S: AsyncRead + AsyncWrite + Unpin + Send + 'static> MakeTlsConnect<S> for Secured {
    type Stream = Stream<S>;
    type TlsConnect = Session;
    type Error = ErrorStack;

    fn make_tls_connect(&mut self, host: &str) -> Result<Session, ErrorStack> {
        Ok(Session(self.0.configure()?, host.to_owned()))
    }
}

impl<S: AsyncRead + AsyncWrite + Unpin + Send + 'static> TlsConnect<S> for Session {
    type Stream = Stream<S>;
    type Error = io::Error;
    type Future = Connected<S>;

    fn connect(self, stream: S) -> Connected<S> {
        Box::pin(async move {
            let mut stream = SslStream::new(self.0.into_ssl(&self.1)?, stream)?;
            Pin::new(&mut stream).connect().await.map_err(io::Error::other)?;
            Ok(Stream(stream))
        })
    }
}

impl<S: AsyncRead + AsyncWrite + Unpin> TlsStream for Stream<S> {
    fn channel_binding(&self) -> ChannelBinding {
        ChannelBinding::none()
    }
}

impl<S: AsyncRead + AsyncWrite + Unpin> AsyncRead for Stream<S> {
    fn poll_read(
        mut self: Pin<&mut Self>,
        context: &mut Context<'_>,
        room: &mut ReadBuf<'_>,
    ) -> Poll<io::Result<()>> {
        Pin::new(&mut self.0).poll_read(context, room)
    }
}

impl<S: AsyncRead + AsyncWrite + Unpin> AsyncWrite for Stream<S> {
    fn poll_write(
        mut self: Pin<&mut Self>,
        context: &mut Context<'_>,
        octets: &[u8],
    ) -> Poll<io::Result<usize>> {
        Pin::new(&mut self.0).poll_write(context, octets)
    }

    fn poll_flush(mut self: Pin<&mut Self>, context: &mut Context<'_>) -> Poll<io::Result<()>> {
        Pin::new(&mut self.0).poll_flush(context)
    }

    fn poll_shutdown(mut self: Pin<&mut Self>, context: &mut Context<'_>) -> Poll<io::Result<()>> {
        Pin::new(&mut self.0).poll_shutdown(context)
    }
}
