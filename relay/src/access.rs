//! What the holder of a certificate may ask for, by a file.
//!
//! A line has a name that the certificate has (its subject's common name, or a DNS name), and words
//! that say what that may ask for. A name may have several lines: what one of them allows is allowed.
//! `#` begins a comment.
//!
//! ```text
//! bank.example.org  client=bank. client=audit.
//! proxy.example.org *
//! probe.example.org free operation=_non_existent
//! desk.example.org  client=desk. object=accounts/ operation=balance
//! ```
//!
//! | Word | What it allows |
//! |---|---|
//! | `client=PREFIX`, or a word without `=` | requests with FT_REQUEST, whose client id begins so |
//! | `free` | requests without FT_REQUEST |
//! | `object=PREFIX` | of these only those of objects whose key begins so |
//! | `operation=NAME` | of these only those of this operation |
//!
//! Several words of a kind allow what one of them does. A prefix `*` is any. `%` and two digits are
//! an octet, as in a URL of an object key (CORBA 3.3 Part 2, 7.6.10.3), but in a word without `=`.

use crate::reasons::Refusal;
use std::collections::HashMap;
use std::fs;
use std::path::Path;

/// What a line allows.
#[derive(Clone, Debug, Default, PartialEq, Eq)]
struct Rule {
    clients: Vec<Vec<u8>>,
    is_free: bool,
    /// Any where there is none.
    objects: Vec<Vec<u8>>,
    operations: Vec<Vec<u8>>,
}

/// A request, as far as it is to be allowed.
pub struct Wanted<'r> {
    /// The client id of its FT_REQUEST, if it has one.
    pub client: Option<&'r [u8]>,
    pub object: &'r [u8],
    pub operation: &'r [u8],
}

/// What is allowed, by the names of certificates.
#[derive(Clone, Debug, Default, PartialEq, Eq)]
pub struct Clients(HashMap<String, Vec<Rule>>);

/// A prefix whose octets may be written by `%` and two digits; nothing where these are none.
fn prefix_of(text: &str) -> Option<Vec<u8>> {
    let mut octets = Vec::new();
    let mut left = text.as_bytes();
    while let [first, behind @ ..] = left {
        let escaped = (*first == b'%').then(|| behind.split_at_checked(2));
        let (octet, behind) = match escaped {
            None => (*first, behind),
            Some(split) => {
                let (digits, behind) = split?;
                let digits = std::str::from_utf8(digits).ok()?;
                let is_hex = digits.bytes().all(|digit| digit.is_ascii_hexdigit());
                (u8::from_str_radix(digits, 16).ok().filter(|_| is_hex)?, behind)
            }
        };
        octets.push(octet);
        left = behind;
    }
    Some(octets)
}

/// Whether octets begin as one of some prefixes.
fn begins(octets: &[u8], prefixes: &[Vec<u8>]) -> bool {
    prefixes.iter().any(|prefix| prefix == b"*" || octets.starts_with(prefix))
}

impl Rule {
    /// What words allow.
    fn of<'w>(words: impl Iterator<Item = &'w str>) -> Result<Rule, &'static str> {
        let mut rule = Rule::default();
        for word in words {
            rule.takes(word)?;
        }
        if rule.clients.is_empty() && !rule.is_free {
            return Err("it allows nothing: client=PREFIX or free says what");
        }
        Ok(rule)
    }

    fn takes(&mut self, word: &str) -> Result<(), &'static str> {
        let Some((kind, what)) = word.split_once('=') else {
            match word {
                "free" => self.is_free = true,
                _ => self.clients.push(word.into()),
            }
            return Ok(());
        };
        let prefix = prefix_of(what).ok_or("behind % come two digits")?;
        match kind {
            _ if what.is_empty() => return Err("behind = comes what it allows: * is any"),
            "client" => self.clients.push(prefix),
            "object" => self.objects.push(prefix),
            "operation" => self.operations.push(what.into()),
            _ => return Err("a word is client=, object=, operation= or free"),
        }
        Ok(())
    }

    /// Whether this is of those requests of which it allows some.
    fn is_about(&self, client: Option<&[u8]>) -> bool {
        client.map_or(self.is_free, |client| begins(client, &self.clients))
    }

    fn allows(&self, wanted: &Wanted<'_>) -> bool {
        let is_one = |name: &Vec<u8>| name == b"*" || name == wanted.operation;
        self.is_about(wanted.client)
            && (self.objects.is_empty() || begins(wanted.object, &self.objects))
            && (self.operations.is_empty() || self.operations.iter().any(is_one))
    }
}

impl Clients {
    /// Reads a file.
    ///
    /// # Errors
    ///
    /// Each fault, in a line, with its place.
    pub fn read(file: &Path) -> Result<Clients, Vec<String>> {
        let text = fs::read_to_string(file);
        let text = text.map_err(|error| vec![format!("{}: {error}", file.display())])?;
        let (clients, faults) = Clients::of(&text);
        if faults.is_empty() {
            return Ok(clients);
        }
        let places = faults.iter();
        let say = |(line, why): &(usize, &str)| format!("{}:{line}: {why}", file.display());
        Err(places.map(say).collect())
    }

    /// What a text says, and what is wrong in it, by lines.
    fn of(text: &str) -> (Clients, Vec<(usize, &'static str)>) {
        let (mut clients, mut faults) = (Clients::default(), Vec::new());
        for (index, line) in text.lines().enumerate() {
            let mut words = line.split('#').next().unwrap_or_default().split_whitespace();
            let Some(name) = words.next() else { continue };
            let rules = clients.0.entry(name.to_owned()).or_default();
            match Rule::of(words) {
                Ok(rule) => rules.push(rule),
                Err(why) => faults.push((index + 1, why)),
            }
        }
        if clients.0.is_empty() {
            faults.push((1, "no certificate may use anything"));
        }
        (clients, faults)
    }

    fn rules<'c, S: AsRef<str>>(&'c self, names: &'c [S]) -> impl Iterator<Item = &'c Rule> {
        names.iter().filter_map(|name| self.0.get(name.as_ref())).flatten()
    }

    /// Why who showed a certificate with these names may not send any request of a client id, or any
    /// without one; nothing where it may send some.
    pub fn stranger<S: AsRef<str>>(&self, names: &[S], client: Option<&[u8]>) -> Option<Refusal> {
        let is_known = self.rules(names).any(|rule| rule.is_about(client));
        let refusal = if client.is_some() { Refusal::Stranger } else { Refusal::Keyless };
        (!is_known).then_some(refusal)
    }

    /// Whether who showed a certificate with these names may send this request.
    pub fn may<S: AsRef<str>>(&self, names: &[S], wanted: &Wanted<'_>) -> bool {
        self.rules(names).any(|rule| rule.allows(wanted))
    }
}

#[cfg(test)]
mod tests {
    use super::*;

    /// What is said of a request: `client object operation`, of which the first is `-` for none.
    fn said(clients: &Clients, names: &[&str], request: &str) -> &'static str {
        let words: Vec<&[u8]> = request.split(' ').map(str::as_bytes).collect();
        let [client, object, operation] = words[..] else { panic!("{request}") };
        let client = Some(client).filter(|client| *client != b"-");
        match clients.stranger(names, client) {
            Some(Refusal::Stranger) => "stranger",
            Some(Refusal::Keyless) => "keyless",
            Some(other) => panic!("{other:?}"),
            None if clients.may(names, &Wanted { client, object, operation }) => "may",
            None => "forbidden",
        }
    }

    #[test]
    fn a_certificate_has_its_client_ids() {
        let text = "# who\nbank a. b.\n\n  proxy *  # all\nbank c.\n";
        let (clients, faults) = Clients::of(text);
        assert_eq!(faults, []);
        for (names, client, may) in [
            (vec!["bank"], "a.1", true),
            (vec!["bank"], "b.", true),
            (vec!["bank"], "c.2", true),
            (vec!["bank"], "a", false),
            (vec!["bank"], "d.1", false),
            (vec!["proxy"], "d.1", true),
            (vec!["other", "bank"], "a.1", true),
            (vec!["other"], "a.1", false),
            (vec![], "a.1", false),
        ] {
            let wanted = if may { "may" } else { "stranger" };
            assert_eq!(
                said(&clients, &names, &format!("{client} k add")),
                wanted,
                "{names:?} {client}"
            );
            assert_eq!(said(&clients, &names, "- k add"), "keyless", "{names:?}");
        }
    }

    #[test]
    fn objects_and_operations_have_theirs() {
        let text = "
            desk  client=desk. object=ab object=%00%fFc operation=add operation=get
            desk  client=audit. operation=get
            probe free operation=_is_a
            all   free client=* object=* operation=*
            both  free old. object=x
        ";
        let (clients, faults) = Clients::of(text);
        assert_eq!(faults, []);
        for (name, request, wanted) in [
            ("desk", "desk.1 ab add", "may"),
            ("desk", "desk.1 abc get", "may"),
            ("desk", "desk.1 a add", "forbidden"),
            ("desk", "desk.1 ab addd", "forbidden"),
            ("desk", "desk.1 ab ad", "forbidden"),
            ("desk", "audit.1 z get", "may"),
            ("desk", "audit.1 ab add", "forbidden"),
            ("desk", "other.1 ab add", "stranger"),
            ("desk", "- ab add", "keyless"),
            ("probe", "- z _is_a", "may"),
            ("probe", "- z add", "forbidden"),
            ("probe", "p.1 z _is_a", "stranger"),
            ("all", "- z add", "may"),
            ("all", "x z add", "may"),
            ("both", "old.1 xy add", "may"),
            ("both", "- xy add", "may"),
            ("both", "old.1 y add", "forbidden"),
        ] {
            assert_eq!(said(&clients, &[name], request), wanted, "{name} {request}");
        }
        let octets = Wanted { client: Some(b"desk."), object: b"\0\xffcd", operation: b"add" };
        assert!(clients.may(&["desk"], &octets));
    }

    #[test]
    fn a_fault_has_a_line() {
        for (text, lines) in [
            ("a b\nbank\n", vec![2]),
            ("# nobody\n", vec![1]),
            ("a b\na object=b\na clients=b\na b operation=\n", vec![2, 3, 4]),
            ("a client=%4\na client=%4g\na client=%+4\na client=%41\n", vec![1, 2, 3]),
        ] {
            let (_, faults) = Clients::of(text);
            assert_eq!(faults.iter().map(|it| it.0).collect::<Vec<_>>(), lines, "{text}");
        }
    }
}
