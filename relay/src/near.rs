//! TLS where no relay is at the other end: to the clients of `retry`, and to the servers of `guard`.

use crate::settings::Tls;
use clap::Args;
use std::path::PathBuf;

/// TLS to clients: they are shown this certificate.
#[derive(Clone, Debug, Args)]
#[command(next_help_heading = "TLS to clients")]
pub struct OfClients {
    /// The certificate that clients are shown, with those that lead to its authority, as PEM
    #[arg(long, value_name = "FILE", requires = "listen_key")]
    pub listen_certificate: Option<PathBuf>,
    /// The key of that certificate, as PEM
    #[arg(long, value_name = "FILE", requires = "listen_certificate")]
    pub listen_key: Option<PathBuf>,
    /// The authorities of clients' certificates, as PEM: without it none is asked for
    #[arg(long, value_name = "FILE", requires = "listen_certificate")]
    pub listen_authorities: Option<PathBuf>,
}

/// TLS to servers: their certificates have to name their hosts.
#[derive(Clone, Debug, Args)]
#[command(next_help_heading = "TLS to servers")]
pub struct OfServers {
    /// The authorities of servers' certificates, as PEM
    #[arg(long, value_name = "FILE")]
    pub server_authorities: Option<PathBuf>,
    /// The certificate that servers are shown, with those that lead to its authority, as PEM
    #[arg(long, value_name = "FILE", requires_all = ["server_key", "server_authorities"])]
    pub server_certificate: Option<PathBuf>,
    /// The key of that certificate, as PEM
    #[arg(long, value_name = "FILE", requires = "server_certificate")]
    pub server_key: Option<PathBuf>,
}

impl OfClients {
    #[must_use]
    pub fn tls(&self) -> Tls {
        let OfClients { listen_certificate, listen_key, listen_authorities } = self.clone();
        let (certificate, key, authorities) = (listen_certificate, listen_key, listen_authorities);
        Tls { certificate, key, authorities, revoked: None }
    }
}

impl OfServers {
    #[must_use]
    pub fn tls(&self) -> Tls {
        let OfServers { server_authorities, server_certificate, server_key } = self.clone();
        let (certificate, key, authorities) = (server_certificate, server_key, server_authorities);
        Tls { certificate, key, authorities, revoked: None }
    }
}
