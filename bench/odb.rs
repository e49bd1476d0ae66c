//! What a plain Rust program takes for a script of `create UINT32`, `set`, `get`, `save` and `load`: the keys in one hash
//! map by their paths, and for a file those of each directory in a list.

use std::collections::HashMap;
use std::collections::hash_map::Entry;
use std::fs;
use std::io::{self, BufWriter, Read, Write};

struct Key {
    name: String,
    kind: &'static str,
    item: i64,
}

#[derive(Default)]
struct Database {
    keys: Vec<Key>,
    places: HashMap<String, usize>,
    directories: Vec<(String, Vec<usize>)>,
    directory_places: HashMap<String, usize>,
}

impl Database {
    /// The place of a directory, which is made with those above it where it is missing.
    fn directory(&mut self, path: &str) -> usize {
        let folded = path.to_ascii_lowercase();
        if let Some(place) = self.directory_places.get(&folded) {
            return *place;
        }
        match path.rsplit_once('/') {
            Some((above, _)) if !above.is_empty() => self.directory(above),
            _ => 0,
        };
        let place = self.directories.len();
        self.directories.push((path.to_string(), Vec::new()));
        self.directory_places.insert(folded, place);
        place
    }

    /// Gives the key at this path its item, and makes it in this directory where it is missing.
    fn put(&mut self, mut path: String, directory: usize, name: &str, kind: &'static str, item: i64) {
        path.make_ascii_lowercase();
        match self.places.entry(path) {
            Entry::Occupied(place) => self.keys[*place.get()].item = item,
            Entry::Vacant(free) => {
                let place = *free.insert(self.keys.len());
                self.directories[directory].1.push(place);
                let name = name.to_string();
                self.keys.push(Key { name, kind, item });
            }
        }
    }

    fn key(&mut self, path: &str) -> Option<&mut Key> {
        let place = self.places.get(&path.to_ascii_lowercase())?;
        Some(&mut self.keys[*place])
    }

    fn save(&self, file: &str) -> io::Result<usize> {
        let mut text = Vec::new();
        for (path, places) in &self.directories {
            writeln!(text, "[{path}]")?;
            for place in places {
                let Key { name, kind, item } = &self.keys[*place];
                writeln!(text, "{name} = {kind} : {item}")?;
            }
            writeln!(text)?;
        }
        let mut out = fs::File::create_new(file)?;
        out.write_all(&text)?;
        out.sync_all()?;
        Ok(text.len())
    }

    fn load(&mut self, file: &str) -> io::Result<usize> {
        let text = fs::read_to_string(file)?;
        let (mut above, mut directory, mut loaded) = ("", 0, 0);
        for line in text.lines() {
            if let Some(path) = line.strip_prefix('[').and_then(|rest| rest.strip_suffix(']')) {
                (above, directory) = (path, self.directory(path));
            } else if let Some((name, value)) = line.split_once(" = ") {
                let (kind, item) = value.split_once(" : ").unwrap_or_default();
                let kind = if kind == "INT32" { "INT32" } else { "UINT32" };
                let path = [above, "/", name].concat();
                self.put(path, directory, name, kind, item.parse().unwrap_or_default());
                loaded += 1;
            }
        }
        Ok(loaded)
    }
}

fn play(script: &str, out: &mut impl Write) -> io::Result<()> {
    let mut database = Database::default();
    for line in script.lines() {
        let mut words = line.split(' ');
        match (words.next(), words.next(), words.next()) {
            (Some("create"), Some("UINT32"), Some(path)) => {
                let (above, name) = path.rsplit_once('/').unwrap_or(("", path));
                let directory = database.directory(above);
                database.put(path.to_string(), directory, name, "UINT32", 0);
            }
            (Some("set"), Some(path), Some(item)) => {
                if let (Some(key), Ok(item)) = (database.key(path), item.parse()) {
                    key.item = item;
                }
            }
            (Some("get"), Some(path), None) => {
                if let Some(Key { name, kind, item }) = database.key(path) {
                    writeln!(out, "{name} = {kind} : {item}")?;
                }
            }
            (Some("save"), Some(file), None) => writeln!(out, "saved {}", database.save(file)?)?,
            (Some("load"), Some(file), None) => {
                writeln!(out, "loaded {} skipped 0", database.load(file)?)?;
            }
            _ => writeln!(out, "refused")?,
        }
    }
    Ok(())
}

fn main() -> io::Result<()> {
    let mut script = String::new();
    io::stdin().read_to_string(&mut script)?;
    let mut out = BufWriter::new(io::stdout());
    play(&script, &mut out)?;
    out.flush()
}
