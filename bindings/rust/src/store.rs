//! Tables of outcomes in a database of yours, each written in one transaction with its effect, and
//! what is said to them: texts of SQL, for the crate by which you ask your database. Servers in C,
//! C++, Python and Rust, and guards of `lemonrudder`, have these tables in common.
//!
//! ```
//! use lemonrudder::store::{SQLITE, VERSION};
//!
//! assert!(SQLITE.changes(0).contains("CREATE TABLE outcome"));
//! assert_eq!(SQLITE.changes(VERSION), "");
//! assert_eq!(SQLITE.named("least"), "SELECT moment FROM forgotten");
//! ```

use alloc::format;
use alloc::string::String;

/// The version of the tables.
pub const VERSION: i32 = 4;

/// What is said to tables in SQLite.
pub const SQLITE: Texts = Texts(include_str!("outcomes.sqlite.sql"));

/// What is said to tables in PostgreSQL.
pub const POSTGRES: Texts = Texts(include_str!("outcomes.postgres.sql"));

/// What is said to tables in a kind of database, with what the columns are.
pub struct Texts(pub &'static str);

impl Texts {
    /// What is said under a name, and nothing where there is no such name: `found` and `version`,
    /// which answer a number each; `least`, which answers W; `find` of client and retention, which
    /// answers W, status, order (1 little) and body; `keep` of client, retention, expiration,
    /// status, order and body, which writes no row where that expires before W; `greatest` and
    /// `take out` of a moment, and between them `raise` of what the first answered, plus 1. In
    /// PostgreSQL also `lock`, before `found`, and `alone`, before `greatest`. A moment is eight
    /// octets in big order.
    #[must_use]
    pub fn named(&self, name: &str) -> &'static str {
        let begins = format!("\n-- :{name}\n");
        let said = self.0.split_once(&begins).map_or("", |(_, said)| said);
        said.split("\n\n").next().unwrap_or("").trim_end()
    }

    /// What makes the tables, in one transaction, of those that were `found`.
    #[must_use]
    pub fn changes(&self, found: i32) -> String {
        if found >= VERSION {
            return String::new();
        }
        let (aside, over) = (format!("aside {found}"), format!("over {found}"));
        [&aside[..], "tables", &over].map(|name| self.named(name)).join("\n")
    }
}
