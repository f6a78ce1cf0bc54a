//! No module of this package imports one that imports it, directly or around a ring.

use std::collections::{BTreeMap, BTreeSet};
use std::path::Path;

/// Each module with those that it names.
type Imports = BTreeMap<String, BTreeSet<String>>;

fn imports() -> Imports {
    let mut sources = BTreeMap::new();
    collect(&Path::new(env!("CARGO_MANIFEST_DIR")).join("src"), "", &mut sources);
    let named = |(name, code): (&String, &String)| {
        let paths = paths(name, code);
        let modules = paths.iter().filter_map(|path| module(path, &sources)).filter(|module| module != name);
        (name.clone(), modules.collect())
    };
    sources.iter().map(named).collect()
}

/// The sources below a directory by their module's name, without comments.
fn collect(directory: &Path, within: &str, sources: &mut BTreeMap<String, String>) {
    for entry in std::fs::read_dir(directory).expect("a directory of sources") {
        let path = entry.expect("an entry").path();
        let name = within.to_string() + path.file_stem().expect("a name").to_str().expect("plain letters");
        if path.is_dir() {
            collect(&path, &(name + "::"), sources);
        } else if !matches!(name.as_str(), "lib" | "main") {
            let text = std::fs::read_to_string(&path).expect("a source");
            let code: Vec<&str> = text.lines().filter(|line| !line.trim_start().starts_with("//")).collect();
            sources.insert(name, code.join("\n"));
        }
    }
}

/// What a module names by `crate::`, by `super::`, and of its own children.
fn paths(name: &str, code: &str) -> Vec<String> {
    let parent = name.rsplit_once("::").map_or(String::new(), |(parent, _)| format!("{parent}::"));
    let mut paths = behind(code, "crate::");
    paths.extend(behind(code, "super::").iter().map(|path| format!("{parent}{path}")));
    for child in behind(code, "\nmod ") {
        let named = code.contains(&format!("{child}::"));
        paths.extend(named.then(|| format!("{name}::{child}")));
    }
    paths
}

/// The paths that stand behind a word; of `{a, b}` each one.
fn behind(code: &str, word: &str) -> Vec<String> {
    let path = |text: &str| {
        let letters = |letter: &char| letter.is_alphanumeric() || matches!(letter, '_' | ':');
        text.trim().chars().take_while(letters).collect::<String>()
    };
    let paths = |(at, _): (usize, &str)| -> Vec<String> {
        let rest = &code[at + word.len()..];
        match rest.strip_prefix('{').and_then(|rest| rest.split_once('}')) {
            Some((group, _)) => group.split(',').map(path).collect(),
            None => vec![path(rest)],
        }
    };
    code.match_indices(word).flat_map(paths).collect()
}

/// The module that a path leads to: the longest one of its front parts.
fn module(path: &str, sources: &BTreeMap<String, String>) -> Option<String> {
    let words: Vec<&str> = path.split("::").collect();
    (1..=words.len()).rev().map(|length| words[..length].join("::")).find(|front| sources.contains_key(front))
}

/// The modules on rings and those that lead to them: takes away again and again what imports nothing that is left.
fn rings(mut imports: Imports) -> Vec<String> {
    loop {
        let left: BTreeSet<String> = imports.keys().cloned().collect();
        imports.retain(|_, names| names.iter().any(|name| left.contains(name)));
        if imports.len() == left.len() {
            return imports.into_keys().collect();
        }
    }
}

#[test]
fn modules_import_in_one_direction() {
    let imports = imports();
    // The search sees what there is.
    for (name, other) in
        [("drive", "plain"), ("drive", "archive"), ("plain", "plain::writing"), ("speed::judge", "writer")]
    {
        assert!(imports[name].contains(other), "{name} imports {other}");
    }
    assert_eq!(rings(imports), Vec::<String>::new());
}

#[test]
fn a_ring_is_found() {
    let of = |names: &[&str]| names.iter().map(|name| name.to_string()).collect::<BTreeSet<String>>();
    let pairs = [("a", of(&["b"])), ("b", of(&["c"])), ("c", of(&["b", "d"])), ("d", of(&[]))];
    let imports: Imports = pairs.into_iter().map(|(name, names)| (name.to_string(), names)).collect();
    assert_eq!(rings(imports), ["a", "b", "c"]);
}
