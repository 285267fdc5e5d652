//! SIGHUP: the files that certificates, what is revoked, and clients stand in are read anew, and the
//! settings that name them, or may change otherwise. Connections that are there go on; those that come
//! are of the new ones. Where anything is wrong at that moment, all stays as it was.

use crate::access::Clients;
use crate::live::{self, Live, Now};
use crate::near::{OfClients, OfServers};
use crate::settings::{self, Role, Tls, Words};
use crate::tls::{Acceptor, Connector};
use clap::{ArgMatches, CommandFactory};
use openssl::x509::X509;
use std::collections::BTreeMap;
use std::env;
use std::ffi::OsString;
use std::fs;
use std::path::PathBuf;
use std::sync::{Arc, PoisonError, RwLock};
use tokio::signal::unix::{signal, Signal, SignalKind};
use tracing::{error, info, warn};

/// What is made anew: what was there at the beginning, and is used since.
pub struct Files {
    pub acceptor: Option<Acceptor>,
    pub connector: Option<Connector>,
    pub access: Option<Arc<RwLock<Clients>>>,
}

/// The settings that name files which may change while the program runs.
#[derive(Default)]
struct Named {
    files: BTreeMap<&'static str, PathBuf>,
    /// What stood in each file.
    contents: BTreeMap<&'static str, Vec<u8>>,
}

/// What waits for SIGHUP.
pub struct Reload {
    hangups: Signal,
    /// What the settings said when the program began, and when they were read last.
    first: Values,
    last: Values,
    named: Named,
}

/// What is said of each setting.
type Values = BTreeMap<String, Vec<OsString>>;

impl Named {
    fn of(all: &[(&'static str, &Option<PathBuf>)]) -> Named {
        let files: BTreeMap<_, _> =
            all.iter().filter_map(|(name, file)| Some((*name, (*file).clone()?))).collect();
        let content = |file: &PathBuf| fs::read(file).unwrap_or_default();
        let contents = files.iter().map(|(name, file)| (*name, content(file))).collect();
        Named { files, contents }
    }

    /// Says in the log what differs from what there was before.
    fn says(&self, before: &Named) {
        for (name, file) in &self.files {
            let content = self.contents.get(name);
            if before.files.get(name) == Some(file) && before.contents.get(name) == content {
                continue;
            }
            let certificate = content.filter(|_| name.ends_with("certificate"));
            let first = certificate.and_then(|text| X509::from_pem(text).ok());
            let until = first.map(|first| first.not_after().to_string());
            info!(setting = name, file = %file.display(), until, "changed");
        }
        for name in before.files.keys().filter(|name| !self.files.contains_key(*name)) {
            info!(setting = name, "changed: there is none");
        }
    }
}

/// What words say of each setting.
fn values(words: &[OsString]) -> Option<Values> {
    let command = Words::command();
    let found = command.clone().try_get_matches_from(words).ok()?;
    let (role, of_role) = found.subcommand()?;
    let known = command.find_subcommand(role)?;
    let raw = |of_role: &ArgMatches, name: &str| {
        let values = of_role.try_get_raw(name).ok().flatten();
        values.into_iter().flatten().map(OsString::from).collect::<Vec<_>>()
    };
    let names = known.get_arguments().filter_map(|each| {
        let long = each.get_long()?;
        Some((long.to_owned(), raw(of_role, each.get_id().as_str())))
    });
    Some(names.collect())
}

/// The settings of which something else is said than before.
fn differing<'v>(before: &'v Values, now: &'v Values) -> impl Iterator<Item = &'v str> {
    let differ = |(name, said): &(&'v String, &Vec<OsString>)| before.get(*name) != Some(*said);
    now.iter().filter(differ).map(|(name, _)| &name[..])
}

/// What is said of a setting, in a word.
fn shown(values: &Values, name: &str) -> String {
    let said: &[OsString] = values.get(name).map_or(&[], Vec::as_slice);
    let words: Vec<_> = said.iter().map(|word| word.to_string_lossy()).collect();
    words.join(",")
}

/// The settings that name such files, and those.
fn changing(role: &Role) -> Vec<(&'static str, &Option<PathBuf>)> {
    let (tls, others) = match role {
        Role::Guard(it) => {
            let OfServers { server_authorities, server_certificate, server_key } = &it.near;
            let near = vec![
                ("clients", &it.clients),
                ("server-authorities", server_authorities),
                ("server-certificate", server_certificate),
                ("server-key", server_key),
            ];
            (&it.common.tls, near)
        }
        Role::Retry(it) => {
            let OfClients { listen_certificate, listen_key, listen_authorities } = &it.near;
            let near = vec![
                ("listen-certificate", listen_certificate),
                ("listen-key", listen_key),
                ("listen-authorities", listen_authorities),
            ];
            (&it.common.tls, near)
        }
        Role::Ior(_) | Role::Check(_) | Role::Store(_) => return Vec::new(),
    };
    let Tls { certificate, key, authorities, revoked } = tls;
    let far = [
        ("certificate", certificate),
        ("key", key),
        ("authorities", authorities),
        ("revoked", revoked),
    ];
    far.into_iter().chain(others).collect()
}

impl Reload {
    /// From now on no signal ends the program but those that ask it to end.
    ///
    /// # Errors
    ///
    /// In a line.
    pub fn begin() -> Result<Reload, String> {
        let failed = |error: std::io::Error| format!("signals: {error}");
        // (what is handled once is not what the system does by itself any more)
        for kind in [SignalKind::user_defined1(), SignalKind::user_defined2()] {
            drop(signal(kind).map_err(failed)?);
        }
        let hangups = signal(SignalKind::hangup()).map_err(failed)?;
        let (first, read) = said().map_err(|faults| faults.join("\n"))?;
        let named = Named::of(&changing(&read.role));
        Ok(Reload { hangups, last: first.clone(), first, named })
    }

    /// Reads settings and files anew at each SIGHUP.
    pub async fn runs(mut self, files: Files, live: Arc<Live>) {
        while self.hangups.recv().await.is_some() {
            match self.renews(&files, &live) {
                Ok(()) => info!("SIGHUP: settings and files are read anew"),
                Err(faults) => {
                    for why in faults {
                        error!(why, "SIGHUP: nothing is changed");
                    }
                }
            }
        }
    }

    /// Reads settings and files anew, and says what changed.
    fn renews(&mut self, files: &Files, live: &Live) -> Result<(), Vec<String>> {
        let (values, read) = said()?;
        let (anew, now) = match &read.role {
            Role::Guard(settings) => (Files::of_guard(settings)?, Now::of_guard(settings)),
            Role::Retry(settings) => (Files::of_retry(settings)?, Now::of_retry(settings)),
            Role::Ior(_) | Role::Check(_) | Role::Store(_) => return Ok(()),
        };
        files.becomes(&anew)?;
        live.becomes(now);
        let changing = changing(&read.role);
        let named = Named::of(&changing);
        named.says(&self.named);
        self.named = named;
        let files: Vec<&str> = changing.iter().map(|(name, _)| *name).collect();
        self.says(&values, &files);
        self.last = values;
        Ok(())
    }

    /// Says in the log what changed of what the settings say, but for those that name such files, and
    /// what is as it was when the program began.
    fn says(&self, now: &Values, files: &[&str]) {
        let is_live = |name: &str| live::NAMES.contains(&name);
        let changed = differing(&self.last, now).filter(|name| is_live(name));
        changed.for_each(|setting| info!(setting, value = shown(now, setting), "changed"));
        let others = differing(&self.first, now).filter(|it| !is_live(it) && !files.contains(it));
        others.for_each(|setting| warn!(setting, "needs a restart"));
    }
}

/// What the settings say by now, and what that means.
fn said() -> Result<(Values, Words), Vec<String>> {
    let words = Words::whole(env::args_os())?;
    let read = Words::of(&words)?;
    Ok((values(&words).unwrap_or_default(), read))
}

/// A fault that is the only one.
fn one(why: String) -> Vec<String> {
    vec![why]
}

impl Files {
    /// What the settings of a guard say.
    ///
    /// # Errors
    ///
    /// Each fault of the files, in a line.
    pub fn of_guard(settings: &settings::Guard) -> Result<Files, Vec<String>> {
        let acceptor = Acceptor::open(&settings.common.tls).map_err(one)?;
        let access = settings.clients.as_deref().map(Clients::read).transpose()?;
        let access = access.map(|clients| Arc::new(RwLock::new(clients)));
        let connector = Connector::open(&settings.near.tls()).map_err(one)?;
        Ok(Files { acceptor, connector, access })
    }

    /// What the settings of who stands beside clients say.
    ///
    /// # Errors
    ///
    /// Each fault of the files, in a line.
    pub fn of_retry(settings: &settings::Retry) -> Result<Files, Vec<String>> {
        let connector = Connector::open(&settings.common.tls).map_err(one)?;
        let acceptor = Acceptor::open(&settings.near.tls()).map_err(one)?;
        Ok(Files { acceptor, connector, access: None })
    }

    /// Which of them there are.
    fn kinds(&self) -> [(&'static str, bool); 3] {
        [
            ("TLS to who connects", self.acceptor.is_some()),
            ("TLS to where it connects", self.connector.is_some()),
            ("clients", self.access.is_some()),
        ]
    }

    /// Becomes what others are, in whole or not at all.
    fn becomes(&self, others: &Files) -> Result<(), Vec<String>> {
        let kinds = self.kinds().into_iter().zip(others.kinds());
        let differing = kinds.filter(|((_, is), (_, will))| is != will);
        let say = |((what, _), _)| format!("{what}: can't begin or end without a restart");
        let faults: Vec<String> = differing.map(say).collect();
        if !faults.is_empty() {
            return Err(faults);
        }
        if let (Some(before), Some(now)) = (&self.acceptor, &others.acceptor) {
            before.becomes(now);
        }
        if let (Some(before), Some(now)) = (&self.connector, &others.connector) {
            before.becomes(now);
        }
        if let (Some(before), Some(now)) = (&self.access, &others.access) {
            let now = now.read().unwrap_or_else(PoisonError::into_inner).clone();
            *before.write().unwrap_or_else(PoisonError::into_inner) = now;
        }
        Ok(())
    }
}
