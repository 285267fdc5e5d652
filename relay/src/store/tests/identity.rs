//! Tests of what a store in a file is known by.

use super::*;
use crate::store::identity::beside;
use std::fs;

/// What a store in a file is known by in the life of a guard, that begins a request of a client, if
/// there is one, and ends.
async fn life(file: &Path, client: &str) -> Mark {
    let mut store = Sqlite::open(file).unwrap();
    if !client.is_empty() {
        let begin = Step::Begin(key(client, "1"), 100);
        let done = store.write(&[&begin]).await.unwrap();
        assert!(matches!(done[..], [Done::Begun(Begun::New)]));
    }
    store.mark().unwrap()
}

#[tokio::test]
async fn a_file_is_known_as_long_as_it_forgets_nothing() {
    let put_back = |file: &Path, copy: &Path| fs::copy(copy, file).map(drop);
    let keeps = |_: &Path, _: &Path| Ok(());
    type Deed = fn(&Path, &Path) -> std::io::Result<()>;
    let deeds: [(&str, &str, Deed, bool); 5] = [
        ("known-kept", "b", keeps, true),
        ("known-copy", "b", put_back, false),
        // (by the number of the life, though nothing was begun in it)
        ("known-same", "", put_back, false),
        ("known-alone", "", |file, _| fs::remove_file(beside(file)), false),
        ("known-empty", "", |file, _| fs::write(file, ""), false),
    ];
    for (name, client, deed, is_known) in deeds {
        let (file, copy) = (file(name), file(&format!("{name}-copy")));
        _ = fs::remove_file(beside(&file));
        life(&file, "a").await;
        fs::copy(&file, &copy).unwrap();
        let before = life(&file, client).await;
        deed(&file, &copy).unwrap();
        let after = life(&file, "").await;
        assert_eq!(after.knows(&before), is_known, "{name}: {before:?} {after:?}");
        assert!(!before.knows(&after), "{name}");
        // .. and from then on it is known as it is
        assert!(life(&file, "").await.knows(&after), "{name}");
    }
}

#[tokio::test]
async fn a_copy_of_both_files_is_not_the_life_that_was() {
    let (file, copy) = (file("both"), file("both-copy"));
    life(&file, "a").await;
    for [from, to] in [[file.clone(), copy.clone()], [beside(&file), beside(&copy)]] {
        fs::copy(from, to).unwrap();
    }
    let before = life(&file, "b").await;
    for [from, to] in [[copy.clone(), file.clone()], [beside(&copy), beside(&file)]] {
        fs::copy(from, to).unwrap();
    }
    assert!(!life(&file, "").await.knows(&before));
}

#[tokio::test]
async fn a_file_of_the_last_version_gets_what_it_is_known_by() {
    let file = file("last-version");
    life(&file, "a").await;
    let link = rusqlite::Connection::open(&file).unwrap();
    link.execute_batch("DROP TABLE identity").unwrap();
    drop(link);
    fs::remove_file(beside(&file)).unwrap();
    let mark = life(&file, "b").await;
    assert!(life(&file, "").await.knows(&mark));
}
