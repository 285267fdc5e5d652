//! Why handshakes of TLS fail: what is wrong with the certificate that a peer showed, and what a peer
//! says of this program's.

use crate::wire::{locked, shown};
use openssl::error::Error;
use openssl::ssl::{self, SslRef, SslVerifyMode};
use openssl::x509::{X509Ref, X509StoreContextRef};
use std::io::{self, ErrorKind};
use std::sync::{Arc, Mutex};

/// Where OpenSSL's reasons begin that are alerts, each by its number.
const ALERTS: u64 = 1000;
/// What of an error's code is its reason.
const REASON: u64 = 0xfff;

/// What is found in the certificate that a peer shows in a handshake, where that is wrong.
#[derive(Clone, Default)]
pub struct Verdict(Arc<Mutex<Option<String>>>);

impl Verdict {
    /// Has it noted of a handshake that is to come.
    pub fn of(ssl: &mut SslRef, mode: SslVerifyMode) -> Verdict {
        let verdict = Verdict::default();
        let noted = verdict.clone();
        ssl.set_verify_callback(mode, move |is_good, at| {
            if !is_good {
                locked(&noted.0).get_or_insert_with(|| found(at));
            }
            is_good
        });
        verdict
    }

    /// The error of a handshake that failed: `UnexpectedEof` where the peer only closed it.
    pub fn error(&self, error: &ssl::Error) -> io::Error {
        let first = error.ssl_error().and_then(|all| all.errors().first());
        let (why, failed) = match (first.and_then(Error::reason), error.io_error()) {
            (Some(why), _) => (why.to_owned(), None),
            (None, Some(failed)) => (failed.to_string(), Some(failed.kind())),
            (None, None) => ("unexpected eof".to_owned(), None),
        };
        let is_closed = why.starts_with("unexpected eof");
        let verdict = locked(&self.0).take();
        let why = verdict.map_or(why.clone(), |verdict| format!("{why}: {verdict}"));
        let kind = if is_closed { ErrorKind::UnexpectedEof } else { ErrorKind::InvalidData };
        io::Error::new(failed.unwrap_or(kind), why)
    }
}

/// What is wrong with a certificate, and whose it is.
fn found(at: &X509StoreContextRef) -> String {
    let why = at.error().error_string();
    let subject = at.current_cert().map(subject_of);
    subject.map_or(why.to_owned(), |subject| format!("{why}, {subject}"))
}

/// The subject of a certificate, as `CN=bank, O=some`.
fn subject_of(certificate: &X509Ref) -> String {
    let entries = certificate.subject_name().entries().map(|entry| {
        let name = entry.object().nid().short_name().unwrap_or("?");
        format!("{name}={}", shown(entry.data().as_slice()))
    });
    entries.collect::<Vec<_>>().join(", ")
}

/// What a peer said of this program's certificate, where an error of a connection is that it was
/// refused.
///
/// In TLS 1.3 who connects may send before its certificate was judged (RFC 8446, 4.4.4), and learns
/// by an alert that it was refused (6.2). Then nothing of what it sent was heard: who accepts has no
/// key for it before that (7.1), and hands on nothing before the handshake is over. That is so of
/// these alerts, which speak of a certificate in a handshake, since this program takes part in no
/// other one on the same connection: it neither renegotiates (RFC 5246, 7.2.2) nor offers
/// authentication behind the handshake (RFC 8446, 4.6.2). It is not so of a connection on which
/// octets of the peer had come: they come behind its handshake. An alert is the peer's own: it comes
/// under its key. An end without one says nothing.
#[must_use]
pub fn refusal(error: &io::Error) -> Option<&'static str> {
    let error = error.get_ref()?.downcast_ref::<ssl::Error>()?;
    error.ssl_error()?.errors().iter().find_map(|error| of_alert(error.code()))
}

/// What the alert says whose reason is in a code of OpenSSL's (RFC 8446, 6.2).
fn of_alert(code: u64) -> Option<&'static str> {
    Some(match (code & REASON).checked_sub(ALERTS)? {
        42 => "it refuses the certificate, which does not read",
        43 => "it refuses the certificate, whose kind it does not take",
        44 => "it refuses the certificate, which is revoked",
        45 => "it refuses the certificate, which has expired",
        46 => "it refuses the certificate",
        48 => "it refuses the certificate, whose authority it does not know",
        49 => "it refuses the certificate, which may not connect",
        116 => "it refuses a connection without a certificate",
        _ => return None,
    })
}

#[cfg(test)]
mod tests {
    use super::*;

    #[test]
    fn alerts_speak_of_certificates() {
        // (a code of OpenSSL's has the library in its upper part: 20 is that of TLS)
        for (alert, is_refusal) in [
            (0, false),
            (20, false),
            (40, false),
            (42, true),
            (45, true),
            (47, false),
            (48, true),
            (50, false),
            (51, false),
            (80, false),
            (116, true),
        ] {
            assert_eq!(of_alert(20 << 23 | (1000 + alert)).is_some(), is_refusal, "{alert}");
        }
        assert_eq!(of_alert(20 << 23 | 294), None);
    }
}
