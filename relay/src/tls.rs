//! TLS of both sides, by OpenSSL: who is connected shows a certificate, and asks the other for one
//! where it has authorities.
//!
//! What makes TLS may be renewed while it is used: connections that are there go on.

use crate::alerts::Verdict;
use crate::settings::Tls;
use crate::wire::locked;
use openssl::error::ErrorStack;
use openssl::nid::Nid;
use openssl::ssl::{
    Ssl, SslAcceptor, SslConnector, SslContextBuilder, SslFiletype, SslMethod, SslOptions,
    SslSessionCacheMode, SslVerifyMode, SslVersion,
};
use openssl::x509::store::X509StoreBuilder;
use openssl::x509::verify::X509VerifyFlags;
use openssl::x509::X509Ref;
use std::fs;
use std::io;
use std::path::Path;
use std::pin::Pin;
use std::sync::{Arc, Mutex};
use std::time::Duration;
use tokio::io::{copy, sink, AsyncWriteExt};
use tokio::net::TcpStream;
use tokio::time::timeout;
use tokio_openssl::SslStream;

/// How long a peer whose handshake failed has to hear why.
const LINGER: Duration = Duration::from_secs(1);

/// What makes TLS of connections that are accepted.
#[derive(Clone)]
pub struct Acceptor(Arc<Mutex<SslAcceptor>>);

/// What makes TLS of connections that are opened.
#[derive(Clone)]
pub struct Connector(Arc<Mutex<SslConnector>>);

/// An error of OpenSSL over a file, in one line.
fn of_file(file: &Path, error: &ErrorStack) -> String {
    let why = error.errors().first().and_then(openssl::error::Error::reason);
    format!("{}: {}", file.display(), why.unwrap_or("can't be read"))
}

/// Takes the certificate, the key, the authorities and what these revoked of settings.
fn take(settings: &Tls, context: &mut SslContextBuilder) -> Result<(), String> {
    let failed = |error: ErrorStack| error.to_string();
    if let Some(file) = &settings.certificate {
        let taken = context.set_certificate_chain_file(file);
        taken.map_err(|error| of_file(file, &error))?;
    }
    if let Some(file) = &settings.key {
        let taken = context.set_private_key_file(file, SslFiletype::PEM);
        let taken = taken.and_then(|()| context.check_private_key());
        taken.map_err(|error| of_file(file, &error))?;
    }
    // (those of the system are none of ours)
    context.set_cert_store(X509StoreBuilder::new().map_err(failed)?.build());
    if let Some(file) = &settings.authorities {
        context.set_ca_file(file).map_err(|error| of_file(file, &error))?;
    }
    if let Some(file) = &settings.revoked {
        take_revoked(file, context)?;
    }
    context.set_min_proto_version(Some(SslVersion::TLS1_2)).map_err(failed)
}

/// Takes lists of what is revoked: from now on each authority has to have one.
fn take_revoked(file: &Path, context: &mut SslContextBuilder) -> Result<(), String> {
    let text = fs::read_to_string(file).map_err(|error| format!("{}: {error}", file.display()))?;
    // (what reads lists reads certificates too, and would trust them)
    if text.contains("CERTIFICATE-----") {
        return Err(format!("{}: has a certificate, and not lists alone", file.display()));
    }
    context.set_ca_file(file).map_err(|error| of_file(file, &error))?;
    let flags = X509VerifyFlags::CRL_CHECK | X509VerifyFlags::CRL_CHECK_ALL;
    context.cert_store_mut().set_flags(flags).map_err(|error| error.to_string())
}

/// An error of OpenSSL, as one of sockets.
fn broken(error: impl std::error::Error + Send + Sync + 'static) -> io::Error {
    io::Error::new(io::ErrorKind::InvalidData, error)
}

impl Acceptor {
    /// What settings say: nothing where they name no certificate. Where they name authorities a
    /// peer that shows no certificate of one of them is refused.
    ///
    /// # Errors
    ///
    /// In a line: a file can't be read, or the key is not that of the certificate.
    pub fn open(settings: &Tls) -> Result<Option<Acceptor>, String> {
        if settings.certificate.is_none() {
            return Ok(None);
        }
        let builder = SslAcceptor::mozilla_intermediate_v5(SslMethod::tls_server());
        let mut builder = builder.map_err(|error| error.to_string())?;
        take(settings, &mut builder)?;
        if settings.authorities.is_some() {
            builder.set_verify(SslVerifyMode::PEER | SslVerifyMode::FAIL_IF_NO_PEER_CERT);
        }
        // (no session is taken up again: each handshake judges the certificate anew)
        builder.set_options(SslOptions::NO_TICKET);
        builder.set_session_cache_mode(SslSessionCacheMode::OFF);
        Ok(Some(Acceptor(Arc::new(Mutex::new(builder.build())))))
    }

    /// Connections that come are made by another one from now on.
    pub fn becomes(&self, other: &Acceptor) {
        let other = locked(&other.0).clone();
        *locked(&self.0) = other;
    }

    /// The stream of a socket that was accepted, and the names in the certificate that the peer
    /// showed: the common name of its subject, and its DNS names.
    ///
    /// # Errors
    ///
    /// The handshake failed.
    pub async fn accept(
        &self,
        socket: TcpStream,
    ) -> io::Result<(SslStream<TcpStream>, Vec<String>)> {
        let mut ssl = Ssl::new(locked(&self.0).context()).map_err(broken)?;
        let mode = ssl.verify_mode();
        let verdict = Verdict::of(&mut ssl, mode);
        let mut stream = SslStream::new(ssl, socket).map_err(broken)?;
        if let Err(error) = Pin::new(&mut stream).accept().await {
            lingers(stream.get_mut()).await;
            return Err(verdict.error(&error));
        }
        let names = stream.ssl().peer_certificate().map(|it| names_of(&it)).unwrap_or_default();
        Ok((stream, names))
    }
}

/// Takes what a peer still sends, so that it hears why its handshake failed: who closes a socket with
/// octets in it resets the connection, and the alert may be lost.
async fn lingers(socket: &mut TcpStream) {
    _ = socket.shutdown().await;
    _ = timeout(LINGER, copy(socket, &mut sink())).await;
}

impl Connector {
    /// What settings say: nothing where they name no authorities.
    ///
    /// # Errors
    ///
    /// In a line: a file can't be read, or the key is not that of the certificate.
    pub fn open(settings: &Tls) -> Result<Option<Connector>, String> {
        if settings.authorities.is_none() {
            return Ok(None);
        }
        let builder = SslConnector::builder(SslMethod::tls_client());
        let mut builder = builder.map_err(|error| error.to_string())?;
        take(settings, &mut builder)?;
        builder.set_options(SslOptions::NO_RENEGOTIATION);
        Ok(Some(Connector(Arc::new(Mutex::new(builder.build())))))
    }

    /// Connections that are opened are made by another one from now on.
    pub fn becomes(&self, other: &Connector) {
        let other = locked(&other.0).clone();
        *locked(&self.0) = other;
    }

    /// The stream of a socket that was connected to a host, whose certificate has that name.
    ///
    /// # Errors
    ///
    /// The handshake failed, or the certificate is not that of the host.
    pub async fn connect(&self, host: &str, socket: TcpStream) -> io::Result<SslStream<TcpStream>> {
        let configuration = locked(&self.0).configure().map_err(broken)?;
        let mut ssl = configuration.into_ssl(host).map_err(broken)?;
        let verdict = Verdict::of(&mut ssl, SslVerifyMode::PEER);
        let mut stream = SslStream::new(ssl, socket).map_err(broken)?;
        let connected = Pin::new(&mut stream).connect().await;
        connected.map_err(|error| verdict.error(&error))?;
        Ok(stream)
    }
}

/// The names in a certificate.
fn names_of(certificate: &X509Ref) -> Vec<String> {
    let subject = certificate.subject_name();
    let common = subject.entries_by_nid(Nid::COMMONNAME);
    let common = common.filter_map(|entry| Some(entry.data().as_utf8().ok()?.to_string()));
    let mut names: Vec<String> = common.collect();
    if let Some(others) = certificate.subject_alt_names() {
        names.extend(others.iter().filter_map(|name| Some(name.dnsname()?.to_owned())));
    }
    names
}

/// What is wrong with settings of TLS, each in a line.
#[must_use]
pub fn faults(settings: &Tls) -> Vec<String> {
    let accepted = Acceptor::open(settings).err();
    let connected = Connector::open(settings).err();
    let mut faults: Vec<String> = accepted.into_iter().chain(connected).collect();
    faults.dedup();
    faults
}

#[cfg(test)]
pub mod tests {
    use super::*;
    use openssl::asn1::Asn1Time;
    use openssl::bn::BigNum;
    use openssl::ec::{EcGroup, EcKey};
    use openssl::hash::MessageDigest;
    use openssl::pkey::{PKey, Private};
    use openssl::x509::extension::{BasicConstraints, SubjectAlternativeName};
    use openssl::x509::{X509Name, X509};
    use std::fs;
    use std::path::PathBuf;
    use tokio::io::{AsyncReadExt, AsyncWriteExt};
    use tokio::net::TcpListener;

    /// A certificate, and its key.
    pub type Pair = (X509, PKey<Private>);

    /// A certificate of a name, of an authority or of itself. Of an authority it has a DNS name, too.
    pub fn pair(name: &str, dns: &str, issuer: Option<&Pair>) -> Pair {
        let group = EcGroup::from_curve_name(Nid::X9_62_PRIME256V1).unwrap();
        let key = PKey::from_ec_key(EcKey::generate(&group).unwrap()).unwrap();
        let mut subject = X509Name::builder().unwrap();
        subject.append_entry_by_nid(Nid::COMMONNAME, name).unwrap();
        let subject = subject.build();
        let mut it = X509::builder().unwrap();
        it.set_version(2).unwrap();
        let serial = BigNum::from_u32(u32::try_from(name.len()).unwrap()).unwrap();
        it.set_serial_number(&serial.to_asn1_integer().unwrap()).unwrap();
        it.set_subject_name(&subject).unwrap();
        it.set_issuer_name(issuer.map_or(&*subject, |(of, _)| of.subject_name())).unwrap();
        it.set_not_before(&Asn1Time::days_from_now(0).unwrap()).unwrap();
        it.set_not_after(&Asn1Time::days_from_now(2).unwrap()).unwrap();
        it.set_pubkey(&key).unwrap();
        if issuer.is_some() {
            let mut names = SubjectAlternativeName::new();
            let names = names.dns(dns).build(&it.x509v3_context(None, None)).unwrap();
            it.append_extension(names).unwrap();
        } else {
            it.append_extension(BasicConstraints::new().critical().ca().build().unwrap()).unwrap();
        }
        it.sign(issuer.map_or(&key, |(_, key)| key), MessageDigest::sha256()).unwrap();
        (it.build(), key)
    }

    /// A folder of two authorities, `ours` and `other`, and of certificates of each.
    fn folder(name: &str) -> PathBuf {
        let folder =
            std::env::temp_dir().join(format!("lemonrudder-{}-{name}", std::process::id()));
        fs::create_dir_all(&folder).unwrap();
        for authority in ["ours", "other"] {
            let root = pair(authority, "", None);
            fs::write(folder.join(authority), root.0.to_pem().unwrap()).unwrap();
            for name in ["guard", "bank"] {
                let (certificate, key) = pair(name, &format!("{name}.example"), Some(&root));
                let name = folder.join(format!("{authority}-{name}"));
                fs::write(&name, certificate.to_pem().unwrap()).unwrap();
                let key = key.private_key_to_pem_pkcs8().unwrap();
                fs::write(name.with_extension("key"), key).unwrap();
            }
        }
        folder
    }

    /// Settings by the names of files, of which an empty one is none.
    fn settings(folder: &Path, certificate: &str, key: &str, authorities: &str) -> Tls {
        let file = |name: &str| (!name.is_empty()).then(|| folder.join(name));
        let (certificate, key) = (file(certificate), file(key));
        Tls { certificate, key, authorities: file(authorities), revoked: None }
    }

    /// What a guard takes the peer for, and what comes back to it.
    async fn talk(
        guard: &Tls,
        client: &Tls,
        host: &str,
    ) -> (io::Result<Vec<String>>, io::Result<u8>) {
        let listener = TcpListener::bind("127.0.0.1:0").await.unwrap();
        let address = listener.local_addr().unwrap();
        let acceptor = Acceptor::open(guard).unwrap().unwrap();
        let accepts = tokio::spawn(async move {
            let (mut stream, names) = acceptor.accept(listener.accept().await?.0).await?;
            stream.write_all(b"7").await?;
            Ok(names)
        });
        let socket = TcpStream::connect(address).await.unwrap();
        let connector = Connector::open(client).unwrap().unwrap();
        let came = async {
            let mut stream = connector.connect(host, socket).await?;
            stream.read_u8().await
        };
        let came = came.await;
        (accepts.await.unwrap(), came)
    }

    #[tokio::test]
    async fn each_side_shows_a_certificate() {
        let folder = folder("sides");
        let guard = settings(&folder, "ours-guard", "ours-guard.key", "ours");
        for (certificate, authorities, host, is_heard) in [
            ("ours-bank", "ours", "guard.example", true),
            ("ours-bank", "ours", "bank.example", false),
            ("ours-bank", "other", "guard.example", false),
            ("other-bank", "ours", "guard.example", false),
            ("", "ours", "guard.example", false),
        ] {
            let key = format!("{certificate}.key");
            let key = if certificate.is_empty() { "" } else { &key };
            let client = settings(&folder, certificate, key, authorities);
            let (names, came) = talk(&guard, &client, host).await;
            assert_eq!(came.is_ok(), is_heard, "{certificate} {authorities} {host}");
            let names = names.ok();
            assert_eq!(names.is_some(), is_heard, "{certificate} {authorities} {host}");
            assert!(!is_heard || names.unwrap() == ["bank", "bank.example"]);
        }
        // a guard without authorities asks for none
        let guard = settings(&folder, "ours-guard", "ours-guard.key", "");
        let (names, came) = talk(&guard, &settings(&folder, "", "", "ours"), "guard.example").await;
        assert_eq!((names.unwrap(), came.unwrap()), (vec![], b'7'));
        fs::remove_dir_all(folder).unwrap();
    }

    #[test]
    fn a_fault_is_a_line() {
        let folder = folder("faults");
        for (certificate, key, authorities, file) in [
            ("ours-guard", "ours-guard.key", "ours", ""),
            ("", "", "", ""),
            ("ours-guard", "ours-bank.key", "", "ours-bank.key"),
            ("nowhere", "ours-guard.key", "", "nowhere"),
            ("ours-guard.key", "ours-guard.key", "", "ours-guard.key"),
            ("ours-guard", "ours-guard", "", "ours-guard"),
            ("", "", "ours-guard.key", "ours-guard.key"),
        ] {
            let found = faults(&settings(&folder, certificate, key, authorities));
            let begin = format!("{}: ", folder.join(file).display());
            assert_eq!(found.len(), usize::from(!file.is_empty()), "{certificate}: {found:?}");
            let is_said = |it: &String| it.starts_with(&begin) && !it.contains('\n');
            assert!(found.iter().all(is_said), "{found:?}");
        }
        fs::remove_dir_all(folder).unwrap();
    }
}
