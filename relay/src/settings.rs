//! Settings: by words, and by a file that has the same ones.
//!
//! A file is TOML, with a table for each role, as
//!
//! ```toml
//! [guard]
//! listen = "0.0.0.0:2809"
//! server = ["10.0.0.5:2810"]
//! ```
//!
//! What words say counts in place of what the file says. Both are read in one way: each setting of
//! the file is made the word that says the same.

use crate::compose::LONGEST;
use crate::front::Bounds;
use crate::live::Live;
use crate::near::{OfClients, OfServers};
use crate::pool::{Terms, CLASSES};
use crate::store::Store;
use crate::{access, front, reference, tls};
use clap::parser::ValueSource;
use clap::{Args, CommandFactory, FromArgMatches, Parser, Subcommand, ValueEnum};
use std::collections::BTreeMap;
use std::ffi::OsString;
use std::fmt::Display;
use std::fs;
use std::num::NonZero;
use std::path::{Path, PathBuf};
use std::sync::Arc;
use std::thread;
use std::time::Duration;
use tokio::net::TcpListener;
use toml::{Spanned, Value};

/// How many of the longest messages have room in memory at least.
const MESSAGES: usize = 4;
/// What stands above some of them in the help.
const OF_LIMITS: &str = "Limits";
const OF_TLS: &str = "TLS between retry and guard";
/// What is said where nothing says where outcomes are kept: a guard that is begun in another folder would
/// know nothing of them.
const NO_STORE: &str = "store: nothing is said of it; give a file as outcomes.sqlite, \
    postgres://USER@HOST/DATABASE, or memory, which nothing outlives";

/// Exactly once between ORBs that know nothing of it: GIOP relays with FT_REQUEST.
#[derive(Debug, Parser)]
#[command(name = "lemonrudder", version)]
pub struct Words {
    #[command(subcommand)]
    pub role: Role,
}

/// What the program is to do.
#[derive(Debug, Subcommand)]
pub enum Role {
    Guard(Guard),
    Retry(Retry),
    Ior(Lead),
    Check(Check),
    Store(Kept),
}

/// Stands before servers: a request that comes again is answered by the outcome of its first
#[derive(Debug, Args)]
pub struct Guard {
    /// A server; of several, which serve the same objects, the first that can be reached is asked
    #[arg(long, value_name = "HOST:PORT", value_parser = address)]
    pub server: Vec<String>,
    /// A file with a server's reference, read again whenever it is connected
    #[arg(long, value_name = "FILE")]
    pub reference: Vec<PathBuf>,
    /// Where outcomes are kept: a file, postgres://USER@HOST/DATABASE, or memory
    #[arg(long, default_value = "", hide_default_value = true)]
    pub store: String,
    /// After how long without a sign another guard of the store takes this one for lost
    #[arg(long, value_name = "SECONDS", default_value = "10", value_parser = seconds)]
    pub lease: Duration,
    /// How long an outcome is kept at most: what expires later is refused
    #[arg(long, value_name = "SECONDS", value_parser = seconds, help_heading = OF_LIMITS)]
    pub keep: Option<Duration>,
    /// Requests under way at most of one client id
    #[arg(long, value_name = "N", default_value = "1024", value_parser = count)]
    #[arg(help_heading = OF_LIMITS)]
    pub share: usize,
    /// What the holder of a certificate may ask for
    #[arg(long, value_name = "FILE", requires = "authorities", help_heading = OF_TLS)]
    pub clients: Option<PathBuf>,
    #[command(flatten)]
    pub common: Common,
    #[command(flatten)]
    pub near: OfServers,
}

/// Stands beside clients: sends each of their requests until it is answered
#[derive(Debug, Args)]
pub struct Retry {
    /// A guard; the first that can be reached is asked
    #[arg(long, value_name = "HOST:PORT", value_parser = address)]
    pub guard: Vec<String>,
    /// What its client ids begin with
    #[arg(long, value_name = "PREFIX", default_value = "retry")]
    pub name: String,
    #[command(flatten)]
    pub common: Common,
    #[command(flatten)]
    pub near: OfClients,
}

/// Prints a reference that leads to the same object by another address
#[derive(Debug, Args)]
pub struct Lead {
    /// The address of a relay
    #[arg(long, value_name = "HOST:PORT", value_parser = address)]
    pub at: String,
    /// The relay speaks TLS with clients
    #[arg(long)]
    pub tls: bool,
    /// The reference
    #[arg(value_name = "IOR:..")]
    pub reference: String,
}

/// Says what is wrong in a file of settings
#[derive(Debug, Args)]
pub struct Check {
    /// The file
    pub file: PathBuf,
}

/// Looks into a store in a file, also while its guard runs
#[derive(Debug, Args)]
pub struct Kept {
    #[command(subcommand)]
    pub deed: Deed,
}

/// What is done with a store.
#[derive(Debug, Subcommand)]
pub enum Deed {
    /// Prints what it has, and what is under way
    Show { store: PathBuf },
    /// Says what is wrong in it
    Check { store: PathBuf },
    /// Makes a copy of it as it is at a moment
    Copy { store: PathBuf, to: PathBuf },
}

/// What both roles have.
#[derive(Debug, Args)]
pub struct Common {
    /// A file of settings, for what no words say
    #[arg(long, value_name = "FILE")]
    pub config: Option<PathBuf>,
    /// Where clients connect
    #[arg(long, value_name = "HOST:PORT", value_parser = address)]
    pub listen: Vec<String>,
    /// Where clients find it, where that is elsewhere: forwards that lead there lead through it
    #[arg(long, value_name = "HOST:PORT", value_parser = address)]
    pub published: Vec<String>,
    /// Connections to each server or guard at most
    #[arg(long, value_name = "N", default_value = "4", value_parser = count)]
    pub connections: usize,
    /// How long a request may take
    #[arg(long, value_name = "SECONDS", default_value = "60", value_parser = seconds)]
    pub timeout: Duration,
    /// How long what is outstanding is waited for at SIGTERM
    #[arg(long, value_name = "SECONDS", default_value = "30", value_parser = seconds)]
    pub drain: Duration,
    /// Where counters are given to Prometheus, and /ready is answered
    #[arg(long, value_name = "HOST:PORT", value_parser = address)]
    pub metrics: Option<String>,
    /// The form of the log
    #[arg(long, value_enum, default_value = "text")]
    pub log: Log,
    #[command(flatten)]
    pub limits: Limits,
    #[command(flatten)]
    pub tls: Tls,
}

impl Common {
    /// How connections are opened by who listens so.
    #[must_use]
    pub fn terms(
        &self,
        live: &Arc<Live>,
        unconfirmed: Duration,
        listeners: &[TcpListener],
    ) -> Terms {
        let (most, live, own) = (self.connections, live.clone(), front::places_of(listeners));
        Terms { tls: None, most, live, unconfirmed, is_guard: false, own }
    }

    /// How many threads serve, each by connections of its own to a server or a guard: one for two
    /// processors, since clients or servers are on the others, and few wake each other less.
    #[must_use]
    pub fn threads(&self) -> usize {
        let processors = thread::available_parallelism().map_or(1, NonZero::get);
        processors.div_ceil(2).min(self.connections)
    }

    /// What clients may take, where so many servers or guards have connections of their own.
    #[must_use]
    pub fn bounds(&self, live: &Arc<Live>, upstreams: usize) -> Bounds {
        let lines = upstreams.saturating_mul(self.connections).saturating_mul(CLASSES);
        Bounds { live: live.clone(), lines, threads: self.threads() }
    }
}

/// The form of the log.
#[derive(Clone, Copy, Debug, PartialEq, Eq, ValueEnum)]
pub enum Log {
    Text,
    Json,
}

/// What peers may take.
#[derive(Clone, Debug, Default, Args)]
#[command(next_help_heading = OF_LIMITS)]
pub struct Limits {
    /// Requests under way at most; of one address less than three quarters of them
    #[arg(long, value_name = "N", default_value = "4096", value_parser = count)]
    pub parked: usize,
    /// Connections of clients at most
    #[arg(long, value_name = "N", default_value = "16384", value_parser = count)]
    pub peers: usize,
    /// Connections of clients from one address at most
    #[arg(long, value_name = "N", default_value = "12288", value_parser = count)]
    pub peers_per_address: usize,
    /// What is held in memory for clients at most, in octets, or with K, M or G behind a number
    #[arg(long, value_name = "SIZE", default_value = "1G", value_parser = size)]
    pub memory: usize,
    /// The longest message: 4096 to 16777216
    #[arg(long, value_name = "OCTETS", default_value = "16777216", value_parser = length)]
    pub message: usize,
    /// What messages that have not arrived in whole may take, of one connection
    #[arg(long, value_name = "OCTETS", default_value = "33554432", value_parser = count)]
    pub partial: usize,
    /// After how long without a whole message a connection is closed, unless a request is under way
    #[arg(long, value_name = "SECONDS", default_value = "3600", value_parser = seconds)]
    pub idle: Duration,
    /// How long the handshake of TLS may take
    #[arg(long, value_name = "SECONDS", default_value = "5", value_parser = seconds)]
    pub handshake: Duration,
    /// How long a peer may take nothing of what is due to it
    #[arg(long, value_name = "SECONDS", default_value = "30", value_parser = seconds)]
    pub stalled: Duration,
}

/// TLS between retry and guard: guard shows its certificate to those who connect, retry its to the
/// guard.
#[derive(Clone, Debug, Args)]
#[command(next_help_heading = OF_TLS)]
pub struct Tls {
    /// The certificate, with those that lead to its authority, as PEM
    #[arg(long, value_name = "FILE", requires = "key")]
    pub certificate: Option<PathBuf>,
    /// The key of the certificate, as PEM
    #[arg(long, value_name = "FILE", requires = "certificate")]
    pub key: Option<PathBuf>,
    /// The authorities of the other side's certificates, as PEM
    #[arg(long, value_name = "FILE")]
    pub authorities: Option<PathBuf>,
    /// What each of these authorities revoked: their lists (CRL), as PEM
    #[arg(long, value_name = "FILE", requires = "authorities")]
    pub revoked: Option<PathBuf>,
}

/// A count of at least 1.
fn count(word: &str) -> Result<usize, String> {
    match word.parse() {
        Ok(0) | Err(_) => Err("is no count of at least 1".into()),
        Ok(count) => Ok(count),
    }
}

/// How many octets a message may have.
fn length(word: &str) -> Result<usize, String> {
    let length = word.parse().ok().filter(|length| (4096..=LONGEST).contains(length));
    length.ok_or(format!("is not 4096 to {LONGEST}"))
}

/// So many octets, in which the longest message has room.
fn size(word: &str) -> Result<usize, String> {
    let (digits, unit) = match word.strip_suffix(['K', 'M', 'G']) {
        Some(digits) => (digits, 1024 << (10 * "KMG".find(&word[digits.len()..]).unwrap_or(0))),
        None => (word, 1),
    };
    let size = digits.parse().ok().and_then(|size: usize| size.checked_mul(unit));
    size.filter(|size| *size > 0).ok_or("is no size, as 512M".into())
}

/// A time in seconds, more than none.
fn seconds(word: &str) -> Result<Duration, String> {
    let seconds = word.parse().ok().and_then(|number| Duration::try_from_secs_f64(number).ok());
    seconds.filter(|time| !time.is_zero()).ok_or("is no time in seconds".into())
}

/// HOST:PORT, or [HOST]:PORT where the host has colons.
fn address(word: &str) -> Result<String, String> {
    let (host, port) = word.rsplit_once(':').ok_or("is not HOST:PORT")?;
    let is_bracketed = host.starts_with('[') && host.ends_with(']') && host.len() > 2;
    let is_host = is_bracketed || !(host.is_empty() || host.contains([':', '[', ']', '/']));
    match port.parse::<u16>() {
        Ok(_) if is_host => Ok(word.to_owned()),
        _ => Err("is not HOST:PORT".into()),
    }
}

/// A fault of settings, in one line, with its place.
fn fault(file: &Path, line: usize, why: impl Display) -> String {
    format!("{}:{line}: {why}", file.display())
}

/// The first sentence of what clap says, without how it begins.
fn said(error: &clap::Error) -> String {
    let text = error.to_string();
    // (what is missing stands in lines of its own)
    let lines = text.lines().take_while(|line| !line.starts_with("Usage:"));
    let words: Vec<&str> = lines.flat_map(str::split_whitespace).collect();
    let text = words.join(" ");
    let text = text.split(" For more information").next().unwrap_or_default();
    text.strip_prefix("error: ").unwrap_or(text).to_owned()
}

/// A setting of a file: the line where its value begins, its name, and the words that say it.
struct Setting {
    line: usize,
    name: String,
    words: Vec<OsString>,
}

type Tables = BTreeMap<String, BTreeMap<String, Spanned<Value>>>;

/// The words that say what a value says, or nothing where no words do.
fn words_of(name: &str, value: &Value) -> Option<Vec<OsString>> {
    let word = match value {
        Value::Array(values) => {
            let words: Option<Vec<_>> = values.iter().map(|value| words_of(name, value)).collect();
            return words.map(|words| words.concat());
        }
        Value::String(text) => text.clone(),
        Value::Integer(number) => number.to_string(),
        Value::Float(number) => number.to_string(),
        Value::Boolean(_) | Value::Datetime(_) | Value::Table(_) => return None,
    };
    Some(vec![format!("--{name}={word}").into()])
}

/// A file of settings: what it says of each role, and its faults.
#[derive(Default)]
struct Read {
    roles: BTreeMap<String, Vec<Setting>>,
    faults: Vec<String>,
}

impl Read {
    fn file(file: &Path) -> Read {
        match fs::read_to_string(file) {
            Ok(text) => Read::text(file, &text),
            Err(error) => {
                let faults = vec![format!("{}: {error}", file.display())];
                Read { faults, ..Read::default() }
            }
        }
    }

    fn text(file: &Path, text: &str) -> Read {
        let mut read = Read::default();
        match toml::from_str::<Tables>(text) {
            Err(error) => {
                let line = error.line_col().map_or(1, |(line, _)| line + 1);
                let said = error.to_string();
                let why = said.split(" at line ").next().unwrap_or_default();
                read.faults.push(fault(file, line, why));
            }
            Ok(tables) => {
                for (role, table) in tables {
                    read.role(file, text, &role, table);
                }
            }
        }
        read
    }

    /// Reads the table of a role.
    fn role(
        &mut self,
        file: &Path,
        text: &str,
        role: &str,
        table: BTreeMap<String, Spanned<Value>>,
    ) {
        let command = Words::command();
        let known = command.find_subcommand(role).filter(|_| role == "guard" || role == "retry");
        let Some(known) = known else {
            let why = "is no role: guard and retry are";
            self.faults.push(fault(file, line_of_table(text, role), format!("[{role}] {why}")));
            return;
        };
        let mut settings = Vec::new();
        for (name, value) in table {
            let line = 1 + text[..value.start()].matches('\n').count();
            let is_known = name != "config"
                && known.get_arguments().any(|each| each.get_long() == Some(name.as_str()));
            match words_of(&name, value.get_ref()).filter(|_| is_known) {
                Some(words) => settings.push(Setting { line, name, words }),
                None if is_known => {
                    self.faults.push(fault(file, line, format!("{name}: is no text or number")));
                }
                None => self.faults.push(fault(file, line, format!("{name}: is no setting"))),
            }
        }
        self.roles.insert(role.to_owned(), settings);
    }
}

/// The line in which the table of a role begins.
fn line_of_table(text: &str, role: &str) -> usize {
    let is_it =
        |line: &str| line.trim_start().trim_start_matches('[').trim_start().starts_with(role);
    1 + text.lines().position(is_it).unwrap_or(0)
}

impl Words {
    /// The settings that the program's words say, and the file that they name.
    ///
    /// # Errors
    ///
    /// Each fault, in a line.
    pub fn read(words: impl IntoIterator<Item = OsString>) -> Result<Words, Vec<String>> {
        Words::of(&Words::whole(words)?)
    }

    /// What words say, behind which those of their file stand.
    ///
    /// # Errors
    ///
    /// Each fault, in a line.
    pub fn of(whole: &[OsString]) -> Result<Words, Vec<String>> {
        let words = parse(whole).map_err(|why| vec![why])?;
        let missing = words.role.missing();
        if missing.is_empty() {
            Ok(words)
        } else {
            Err(missing)
        }
    }

    /// The program's words, and behind them those that say what the file says that they name.
    ///
    /// # Errors
    ///
    /// Each fault of the file, in a line.
    pub fn whole(words: impl IntoIterator<Item = OsString>) -> Result<Vec<OsString>, Vec<String>> {
        let words: Vec<OsString> = words.into_iter().collect();
        let found = Words::command().try_get_matches_from(&words);
        // (also where help is asked for: then it is printed, and the program ends)
        let found = found.unwrap_or_else(|error| error.exit());
        let Some((role, of_role)) = found.subcommand() else { return Err(Vec::new()) };
        let config = match role {
            "guard" | "retry" => of_role.get_one::<PathBuf>("config"),
            _ => None,
        };
        let mut all = words.clone();
        if let Some(config) = config {
            let mut read = Read::file(config);
            if !read.faults.is_empty() {
                return Err(read.faults);
            }
            for setting in read.roles.remove(role).unwrap_or_default() {
                let id = setting.name.replace('-', "_");
                if of_role.value_source(&id) != Some(ValueSource::CommandLine) {
                    all.extend(setting.words);
                }
            }
        }
        Ok(all)
    }
}

fn parse(words: &[OsString]) -> Result<Words, String> {
    let found = Words::command().try_get_matches_from(words).map_err(|error| said(&error))?;
    Words::from_arg_matches(&found).map_err(|error| said(&error))
}

impl Role {
    /// What has to be said and is not, and what makes no sense.
    fn missing(&self) -> Vec<String> {
        let (common, which, servers, references, is_kept) = match self {
            Role::Guard(it) => {
                (&it.common, "server", &it.server, it.reference.len(), !it.store.is_empty())
            }
            Role::Retry(it) => (&it.common, "guard", &it.guard, 0, true),
            Role::Ior(_) | Role::Check(_) | Role::Store(_) => return Vec::new(),
        };
        let (listen, tls) = (&common.listen, &common.tls);
        let is_missing =
            |is: bool, name: &str| is.then(|| format!("{name}: nothing is said of it"));
        let is_open = which == "server" && tls.authorities.is_some() && tls.certificate.is_none();
        let is_blind = which == "guard" && tls.certificate.is_some() && tls.authorities.is_none();
        let Limits { memory, message, .. } = common.limits;
        let is_small = memory < message.saturating_mul(MESSAGES);
        let itself = servers.iter().find(|server| listen.contains(server));
        let faults = [
            is_missing(listen.is_empty(), "listen"),
            is_missing(servers.len() + references == 0, which),
            is_small.then(|| format!("memory: has no room for {MESSAGES} messages")),
            (!is_kept).then(|| NO_STORE.to_owned()),
            is_open.then(|| "authorities: without a certificate there is no TLS".to_owned()),
            is_blind.then(|| "certificate: without authorities there is no TLS".to_owned()),
            itself.map(|server| format!("{which}: it listens itself at {server}")),
        ];
        faults.into_iter().flatten().collect()
    }

    /// What is wrong in the files that the settings name, and in the store's address.
    fn faults(&self) -> Vec<String> {
        let (common, near, of_guard) = match self {
            Role::Guard(it) => (&it.common, it.near.tls(), Some(it)),
            Role::Retry(it) => (&it.common, it.near.tls(), None),
            Role::Ior(_) | Role::Check(_) | Role::Store(_) => return Vec::new(),
        };
        let mut faults: Vec<String> = [tls::faults(&common.tls), tls::faults(&near)].concat();
        if let Some(guard) = of_guard {
            let clients = guard.clients.as_deref().map(access::Clients::read);
            faults.extend(clients.and_then(Result::err).unwrap_or_default());
            // (one that is not there yet may be written once the server begins)
            for file in guard.reference.iter().filter(|file| file.exists()) {
                let why = reference::place_in(file).err();
                faults.extend(why.map(|why| format!("{}: {why}", file.display())));
            }
            faults.extend(Store::fault(&guard.store));
        }
        faults
    }
}

/// What is wrong in a file of settings, each in a line, with its place.
#[must_use]
pub fn check(file: &Path) -> Vec<String> {
    let Read { roles, mut faults } = Read::file(file);
    for (role, settings) in roles {
        let mut all: Vec<OsString> = vec!["lemonrudder".into(), role.clone().into()];
        let before = faults.len();
        for setting in settings {
            let alone = all[..2].iter().chain(&setting.words).cloned().collect::<Vec<_>>();
            // (that another setting is wanted shows where all of them are read)
            match Words::command().try_get_matches_from(alone) {
                Err(error) if error.kind() != clap::error::ErrorKind::MissingRequiredArgument => {
                    faults.push(fault(file, setting.line, said(&error)));
                }
                _ => all.extend(setting.words),
            }
        }
        if faults.len() > before {
            continue;
        }
        let found = match parse(&all) {
            Ok(words) => [words.role.missing(), words.role.faults()].concat(),
            Err(why) => vec![why],
        };
        faults.extend(found.iter().map(|why| format!("{}: [{role}] {why}", file.display())));
    }
    faults
}

#[cfg(test)]
mod tests {
    use super::*;

    fn words(text: &str) -> Vec<OsString> {
        ["lemonrudder"].into_iter().chain(text.split_whitespace()).map(OsString::from).collect()
    }

    /// A file of settings, that is named by the test.
    fn file(name: &str, text: &str) -> PathBuf {
        let file = std::env::temp_dir().join(format!("lemonrudder-{}-{name}", std::process::id()));
        fs::write(&file, text).unwrap();
        file
    }

    fn guard(text: &str) -> Result<Guard, Vec<String>> {
        match Words::read(words(text))?.role {
            Role::Guard(guard) => Ok(guard),
            other => panic!("{other:?}"),
        }
    }

    #[test]
    fn three_words_say_enough() {
        let guard =
            guard("guard --listen 0.0.0.0:2809 --server [::1]:2810 --store memory").unwrap();
        assert_eq!(guard.common.listen, ["0.0.0.0:2809"]);
        assert_eq!(guard.server, ["[::1]:2810"]);
        assert_eq!(guard.store, "memory");
        assert_eq!(guard.common.timeout, Duration::from_secs(60));
    }

    #[test]
    fn a_size_has_a_unit() {
        for (word, octets) in [
            ("67108864", Some(64 << 20)),
            ("65536K", Some(64 << 20)),
            ("64M", Some(64 << 20)),
            ("2G", Some(2 << 30)),
            ("0", None),
            ("G", None),
            ("1 G", None),
            ("99999999999999G", None),
        ] {
            assert_eq!(size(word).ok(), octets, "{word}");
        }
    }

    #[test]
    fn words_count_before_the_file() {
        let text = "[guard]\nlisten = 'a:1'\nserver = ['b:1', 'c:2']\nstore = 'memory'\n\
            timeout = 0.5\nparked = 7\n";
        let file = file("words", text);
        let guard = guard(&format!("guard --config {} --server d:3", file.display())).unwrap();
        assert_eq!(guard.common.listen, ["a:1"]);
        assert_eq!(guard.server, ["d:3"]);
        assert_eq!(guard.common.timeout, Duration::from_millis(500));
        assert_eq!(guard.common.limits.parked, 7);
        fs::remove_file(file).unwrap();
    }

    #[test]
    fn what_is_missing_is_said() {
        let missing = guard("guard --listen a:1").unwrap_err();
        assert_eq!(missing, ["server: nothing is said of it", NO_STORE]);
        let missing = Words::read(words("retry --guard a:1")).unwrap_err();
        assert_eq!(missing, ["listen: nothing is said of it"]);
    }

    /// In a file with this text these faults are found, each by its line and what it says.
    fn finds(name: &str, text: &str, faults: &[&str]) {
        let file = file(name, text);
        let found = check(&file);
        assert_eq!(found.len(), faults.len(), "{name}: {found:?}");
        for (want, is) in faults.iter().zip(&found) {
            let (line, why) = want.split_once('|').unwrap();
            let place = format!("{}:{line}", file.display());
            assert!(is.starts_with(&place) && is.contains(why), "{name}: {is:?}, {want:?}");
            assert!(!is.contains('\n'), "{is:?}");
        }
        fs::remove_file(file).unwrap();
    }

    const GOOD: &str = "[guard]\nlisten = 'a:1'\nserver = 'b:2'\nstore = 'memory'\n";

    #[test]
    fn each_fault_has_its_place() {
        for (name, text, faults) in [
            ("good", "", vec![]),
            ("syntax", "x = \n", vec!["5|"]),
            ("unknown", "servers = 'c:1'\n", vec!["5|servers: is no setting"]),
            ("config", "config = 'c'\n", vec!["5|config: is no setting"]),
            ("boolean", "timeout = true\n", vec!["5|timeout: is no text or number"]),
            (
                "values",
                "timeout = 0\nmetrics = 'here'\nlog = 'loud'\n",
                vec!["7|--log", "6|--metrics", "5|--timeout"],
            ),
            ("length", "message = 4095\n", vec!["5|--message"]),
            ("memory", "memory = '63M'\n", vec!["|[guard] memory: has no room"]),
            ("room", "memory = '20000'\nmessage = 5000\n", vec![]),
            ("size", "memory = '1T'\n", vec!["5|--memory"]),
            ("alone", "key = 'k'\n", vec!["|--certificate"]),
            (
                "loop",
                "[retry]\nlisten = 'c:1'\nguard = 'c:1'\n",
                vec!["|[retry] guard: it listens itself at c:1"],
            ),
            ("role", "[gard]\n", vec!["5|[gard] is no role"]),
            ("other", "[retry]\nlisten = 'a:1'\n", vec!["|[retry] guard: nothing is said"]),
            (
                "files",
                "authorities = '/nowhere/x'\n",
                vec!["|[guard] authorities: without a certificate", "|[guard] /nowhere/x: "],
            ),
            ("top", "[other.x]\ny = 1\n", vec!["5|[other] is no role"]),
        ] {
            finds(name, &format!("{GOOD}{text}"), &faults);
        }
    }

    #[test]
    fn a_store_has_its_faults() {
        for (name, store, fault) in [
            ("store", "store = 'postgres://a b:c'\n", "|[guard] store: "),
            ("folder", "store = '/nowhere/x'\n", "|[guard] /nowhere/x: "),
            ("nowhere", "", "|[guard] store: nothing is said of it"),
        ] {
            finds(name, &GOOD.replace("store = 'memory'\n", store), &[fault]);
        }
    }

    #[test]
    fn addresses_have_a_host_and_a_port() {
        for (word, is_one) in [
            ("a.b:1", true),
            ("[::1]:65535", true),
            ("127.0.0.1:0", true),
            ("::1:2809", false),
            ("a:65536", false),
            (":1", false),
            ("a", false),
            ("[]:1", false),
        ] {
            assert_eq!(address(word).is_ok(), is_one, "{word}");
        }
    }
}
