//! ledger: holds docs/CLAIMS.md and crates.txt to the tree. A line for each fault, and status 1 if there is one. CLAIMS.md says at its
//! head how its rows and its lists of functions are read.

use std::{
    collections::BTreeSet,
    fs,
    path::Path,
    process::exit,
};

const CLAIMS: &str = "docs/CLAIMS.md";
const CRATES: &str = "crates.txt";

#[derive(Default)]
struct Ledger {
    faults: Vec<String>,
    rows: usize,
    names: usize,
    /// Edits that a row names, as crate/edit.
    edits: BTreeSet<String>,
    /// Public functions that a list names.
    functions: BTreeSet<String>,
}

impl Ledger {
    fn fault(&mut self, line: usize, what: &str) {
        self.faults.push(format!("{CLAIMS}:{line}: {what}"));
    }
}

fn read(path: &str) -> Option<String> {
    fs::read_to_string(path).ok()
}

/// The entries of a folder, sorted; none if there is no such folder.
fn list(folder: &str) -> Vec<String> {
    let mut names: Vec<String> = fs::read_dir(folder)
        .map(|entries| entries.flatten().map(|entry| entry.file_name().to_string_lossy().into_owned()).collect())
        .unwrap_or_default();
    names.sort();
    names
}

fn crates() -> Vec<String> {
    list("crates").into_iter().filter(|name| Path::new(&format!("crates/{name}/src")).is_dir()).collect()
}

/// What stands in parentheses is for people.
fn plain(cell: &str) -> String {
    let mut depth = 0;
    cell.chars()
        .filter(|&c| {
            depth += i32::from(c == '(');
            let kept = depth == 0;
            depth -= i32::from(c == ')');
            kept
        })
        .collect()
}

/// Text outside and inside of code marks, in turns.
fn marked(part: &str) -> (String, Vec<String>) {
    let mut pieces = part.split('`');
    let head = pieces.next().unwrap_or("").trim().to_string();
    (head, pieces.step_by(2).map(str::to_string).collect())
}

/// The definition of a name in a file of antt: words that open one, the name, and what may follow it. It stands by itself or in a
/// module; what stands under another line is a field, a constructor or a help.
fn defines(text: &str, name: &str, public: bool) -> bool {
    let mut above: Vec<(usize, bool)> = vec![];
    text.lines().filter(|line| !line.trim().is_empty()).any(|line| {
        let indent = line.len() - line.trim_start().len();
        while above.pop_if(|(other, _)| *other >= indent).is_some() {}
        let free = above.iter().all(|(_, module)| *module);
        let mut words = line.split_whitespace().peekable();
        let (mut seen, mut module) = (false, false);
        while let Some(word) = words.next_if(|word| ["pub", "abbrev", "unfoldable", "record", "data", "module"].contains(word)) {
            seen |= word == "pub";
            module |= word == "module";
        }
        above.push((indent, module));
        free && words.next() == Some(name) && (seen || !public) && words.next().is_some()
    })
}

/// Every file of a folder with an extension, joined.
fn sources(folder: &str, extension: &str) -> String {
    let mut text = String::new();
    for name in list(folder) {
        let path = format!("{folder}/{name}");
        if Path::new(&path).is_dir() {
            text += &sources(&path, extension);
        } else if name.ends_with(extension) {
            text += &read(&path).unwrap_or_default();
        }
    }
    text
}

/// A function of a crate: its name as callers write it, whether it is public, whether it requires and ensures something, and whether
/// it gives something back (a result or what it is lent) that no `ensures` speaks of. What a function does through a handle, as
/// `rt: &impl Print`, no clause can say.
#[derive(Default)]
struct Function {
    name: String,
    public: bool,
    requires: bool,
    ensures: bool,
    untold: bool,
}

/// The words and marks of Rattle code, without comments and what stands in quotes.
fn tokens(text: &str) -> Vec<String> {
    let letters: Vec<char> = text.chars().collect();
    let at = |k: usize| letters.get(k).copied().unwrap_or(' ');
    let past = |from: usize, end: &[char]| (from..letters.len()).find(|&k| letters[k..].starts_with(end)).map_or(letters.len(), |k| k + end.len());
    let word = |c: char| c.is_alphanumeric() || c == '_';
    let mut all = vec![];
    let mut k = 0;
    while k < letters.len() {
        k = match (at(k), at(k + 1)) {
            ('/', '/') => past(k, &['\n']),
            ('/', '*') => past(k + 2, &['*', '/']),
            ('"', _) => {
                let mut end = k + 1;
                while end < letters.len() && at(end) != '"' {
                    end += 1 + usize::from(at(end) == '\\');
                }
                end + 1
            }
            ('\'', '\\') => past(k + 3, &['\'']),
            ('\'', _) if at(k + 2) == '\'' => k + 3,
            (c, _) if c.is_whitespace() => k + 1,
            (c, _) => {
                let end = if word(c) { (k..letters.len()).find(|&k| !word(letters[k])).unwrap_or(letters.len()) } else { k + 1 };
                all.push(letters[k..end].iter().collect());
                end
            }
        };
    }
    all
}

/// Past the bracket that closes the one at `from`.
fn closed(tokens: &[String], from: usize) -> usize {
    let mut depth = 0;
    for (k, token) in tokens.iter().enumerate().skip(from) {
        depth += i32::from(["(", "[", "{"].contains(&token.as_str())) - i32::from([")", "]", "}"].contains(&token.as_str()));
        if depth == 0 {
            return k + 1;
        }
    }
    tokens.len()
}

/// The function whose name is at `from`, and where its body begins. `requires` and `ensures` have braces, and the first others are the
/// body's.
fn function(tokens: &[String], from: usize) -> (Function, usize) {
    let is = |k: usize, word: &str| tokens.get(k).is_some_and(|token| token == word);
    let mut f = Function { name: tokens[from].clone(), ..Function::default() };
    // A clause may have a name, which stands between its word and its braces.
    let clause = |k: usize, word: &str| is(k - 1, word) || is(k - 2, word);
    let (mut result, mut lent, mut told, mut handle) = (false, false, false, false);
    let mut k = from + 1;
    while k < tokens.len() && !is(k, ";") {
        let end = if ["(", "[", "{"].contains(&tokens[k].as_str()) { closed(tokens, k) } else { k + 1 };
        let inner = &tokens[k + 1..end.max(k + 1)];
        match tokens[k].as_str() {
            "{" if clause(k, "requires") => f.requires = true,
            "{" if clause(k, "ensures") => {
                f.ensures = true;
                told |= inner.iter().any(|token| token == "result");
            }
            "{" => break,
            "(" if !result => {
                handle |= inner.iter().any(|token| token == "impl");
                lent |= (1..inner.len()).any(|k| inner[k] == "mut" && (inner[k - 1] == "&" || k > 1 && inner[k - 2] == "'"));
            }
            ">" if is(k - 1, "-") => result = !(is(k + 1, "(") && is(k + 2, ")")),
            _ => {}
        }
        k = end;
    }
    f.untold = !handle && (result && !told || lent && !f.ensures);
    (f, k)
}

/// The functions of a crate. A module that lib.rt does not declare `pub mod` has no public ones.
fn functions(name: &str) -> Vec<Function> {
    let mut all = vec![];
    let folder = format!("crates/{name}/src");
    let root = read(&format!("{folder}/lib.rt")).unwrap_or_default();
    for file in list(&folder) {
        let Some(module) = file.strip_suffix(".rt") else { continue };
        let (prefix, shown) = match module {
            "lib" | "main" => (String::new(), module == "lib"),
            _ => (format!("{module}::"), root.contains(&format!("pub mod {module};"))),
        };
        let tokens = tokens(&read(&format!("{folder}/{file}")).unwrap_or_default());
        let (mut within, mut until) = (String::new(), 0);
        let mut k = 0;
        while k < tokens.len() {
            if k >= until {
                within.clear();
            }
            match tokens[k].as_str() {
                "impl" => {
                    let open = (k..tokens.len()).find(|&k| tokens[k] == "{").unwrap_or(tokens.len());
                    // impl<'a> Name<'a>
                    let first = if tokens[k + 1] == "<" { (k..open).find(|&k| tokens[k] == ">").unwrap_or(k) + 1 } else { k + 1 };
                    within = format!("{}::", tokens[first]);
                    until = closed(&tokens, open) - 1;
                    k = open + 1;
                }
                "fn" if k + 1 < tokens.len() => {
                    let before = tokens[..k].iter().rev().find(|token| *token != "extern");
                    let (f, body) = function(&tokens, k + 1);
                    let public = shown && before.is_some_and(|token| token == "pub");
                    all.push(Function { name: format!("{prefix}{within}{}", f.name), public, ..f });
                    k = closed(&tokens, body).max(k + 1);
                }
                _ => k += 1,
            }
        }
    }
    all
}

/// Names of the topics of oracle/compare.
fn topics() -> Vec<String> {
    let text = sources("oracle/topics", ".rs");
    text.split("Topic { name: \"").skip(1).filter_map(|rest| rest.split('"').next()).map(str::to_string).collect()
}

/// The place that a part of a cell names: `crate`, `crate File`, `File`, files parted by commas, a colon after them, and
/// `specs` before them, which is for people.
fn place<'a>(head: &'a str, crates: &[String]) -> Option<(Option<&'a str>, Vec<&'a str>)> {
    let words: Vec<&str> = head.trim_end_matches(':').split([' ', ',']).filter(|word| !word.is_empty()).collect();
    let named = words.first().copied().filter(|word| *word == "kit" || crates.iter().any(|name| name == word));
    let mut files = words[usize::from(named.is_some())..].to_vec();
    files.retain(|word| *word != "specs");
    let fits = files.iter().all(|file| file.starts_with(char::is_uppercase) && file.chars().all(char::is_alphanumeric));
    fits.then_some((named, files))
}

fn row(ledger: &mut Ledger, at: usize, line: &str, crates: &[String], topics: &[String]) {
    let cells: Vec<&str> = line.trim_matches('|').split('|').map(str::trim).collect();
    let [_, definition, contract, edit, run] = cells[..] else {
        return ledger.fault(at, &format!("a row of {} cells, not 5", cells.len()));
    };
    ledger.rows += 1;
    let mut owner = String::new();
    for (kind, cell) in [("definition", definition), ("law or contract", contract), ("edit", edit)] {
        let folder = if kind == "definition" { "specs" } else { "proofs" };
        let mut files: Vec<String> = vec![];
        if !cell.contains(char::is_alphanumeric) {
            ledger.fault(at, &format!("{kind}: an empty cell"));
        }
        for part in plain(cell).split(';').map(str::trim).filter(|part| !part.is_empty()) {
            let (head, names) = marked(part);
            if names.is_empty() {
                ledger.fault(at, &format!("{kind}: {part:?} names nothing"));
            }
            let Some((named, found)) = place(&head, crates) else {
                if kind != "edit" || names.iter().any(|name| !name.contains('/') || !Path::new(name).exists()) {
                    ledger.fault(at, &format!("{kind}: {head:?} names no place"));
                }
                continue;
            };
            match named {
                Some("kit") => continue,
                Some(name) => (owner, files) = (name.to_string(), vec![]),
                None => {}
            }
            if !found.is_empty() {
                files = found.iter().map(|file| file.to_string()).collect();
            }
            if owner.is_empty() {
                ledger.fault(at, &format!("{kind}: {part:?} names no crate"));
                continue;
            }
            // A law stands in proofs; worked examples may stand beside the definitions.
            let path = |folder: &str, file: &String| format!("crates/{owner}/{folder}/{file}.antt");
            let beside = |file: &String| kind != "definition" && !Path::new(&path(folder, file)).is_file();
            let paths: Vec<String> = files.iter().map(|file| path(if beside(file) { "specs" } else { folder }, file)).collect();
            if kind != "edit" {
                for path in paths.iter().filter(|path| !Path::new(path).is_file()) {
                    ledger.fault(at, &format!("{kind}: there is no {path}"));
                }
            }
            for name in names {
                ledger.names += 1;
                if kind == "edit" {
                    let path = format!("crates/{owner}/must-fail/{name}.edit");
                    if !Path::new(&path).is_file() {
                        ledger.fault(at, &format!("edit `{name}`: there is no {path}"));
                    }
                    ledger.edits.insert(format!("{owner}/{name}"));
                } else if files.is_empty() {
                    let method = format!("::{name}");
                    let found = functions(&owner).into_iter().find(|f| f.name == name || f.name.ends_with(&method));
                    if kind == "definition" || !found.is_some_and(|f| f.ensures) {
                        ledger.fault(at, &format!("{kind} `{name}`: no function with that contract in crates/{owner}/src"));
                    }
                } else if !paths.iter().any(|path| defines(&read(path).unwrap_or_default(), &name, kind == "definition")) {
                    ledger.fault(at, &format!("{kind} `{name}`: not in {}", paths.join(", ")));
                }
            }
        }
    }
    for name in marked(&plain(run)).1 {
        ledger.names += 1;
        let path = name.split(' ').next().unwrap_or("");
        let known = topics.contains(&name) || Path::new(&format!("crates/{name}/src/main.rt")).is_file();
        if !known && !(path.contains('/') && Path::new(path).exists()) {
            ledger.fault(at, &format!("run `{name}`: no topic of oracle/compare, no program, no file"));
        }
    }
}

/// A line of the two lists of functions: `- crate: names`, those that require nothing in the first list; `- crate: every export` in
/// the second stands for all of a crate's.
fn listed(ledger: &mut Ledger, at: usize, line: &str, entries: bool, crates: &[String]) {
    let (head, names) = marked(&plain(line.trim_start_matches("- ")));
    let (owner, rest) = head.split_once(':').unwrap_or((&head, ""));
    if !crates.iter().any(|name| name == owner) {
        return ledger.fault(at, &format!("{owner:?} is no crate"));
    }
    let all = functions(owner);
    if rest.trim() == "every export" && !entries {
        let names = all.iter().filter(|f| f.public).map(|f| format!("{owner}::{}", f.name));
        return ledger.functions.extend(names);
    }
    for name in names {
        ledger.names += 1;
        let full = format!("{owner}::{name}");
        match all.iter().find(|f| f.name == name && f.public) {
            None => ledger.fault(at, &format!("`{name}`: no public function of crates/{owner}/src")),
            Some(f) if f.requires && entries => ledger.fault(at, &format!("`{full}` is an entry, and requires something")),
            Some(f) if !f.requires && !entries => ledger.fault(at, &format!("`{full}` requires nothing: it is an entry")),
            _ => {}
        }
        if !ledger.functions.insert(full.clone()) {
            ledger.fault(at, &format!("`{full}` is listed twice"));
        }
    }
}

/// Each dependency of a crate is named by it.
fn dependencies(ledger: &mut Ledger) {
    let text = read(CRATES).unwrap_or_default();
    for (k, line) in text.lines().enumerate() {
        let Some((head, rest)) = line.split('#').next().unwrap_or("").split_once(':') else { continue };
        // a static library says so behind its name
        let name = head.split_whitespace().next().unwrap_or("");
        let code = sources(&format!("crates/{name}/src"), ".rt");
        let logic = sources(&format!("crates/{name}/specs"), ".antt") + &sources(&format!("crates/{name}/proofs"), ".antt");
        for other in rest.split_whitespace() {
            let word = |text: &str, mark: &str| {
                text.match_indices(mark).any(|(at, _)| !text[..at].ends_with(|c: char| c.is_alphanumeric() || c == '_' || c == ':'))
            };
            let used = word(&code, &format!("{other}::")) || code.contains(&format!("use {other};")) || (code.clone() + &logic).contains(&format!("Rattle.{other}."));
            if !used {
                ledger.faults.push(format!("{CRATES}:{}: {name} names {other} as a dependency, and uses nothing of it", k + 1));
            }
        }
    }
}

fn main() {
    let crates = crates();
    let topics = topics();
    let mut ledger = Ledger::default();
    let Some(text) = read(CLAIMS) else {
        println!("ledger: there is no {CLAIMS}");
        exit(1);
    };
    let mut section = "";
    for (k, line) in text.lines().enumerate() {
        let heading = line.starts_with("| Promise |") || line.starts_with("|---");
        match line {
            _ if line.starts_with('#') => section = line.trim_start_matches('#').trim(),
            _ if line.starts_with("| ") && !heading => row(&mut ledger, k + 1, line, &crates, &topics),
            _ if line.starts_with("- ") && section == "Entries" => listed(&mut ledger, k + 1, line, true, &crates),
            _ if line.starts_with("- ") && section == "Functions for proved callers" => listed(&mut ledger, k + 1, line, false, &crates),
            _ => {}
        }
    }
    for name in &crates {
        for edit in list(&format!("crates/{name}/must-fail")) {
            let edit = edit.trim_end_matches(".edit");
            if !ledger.edits.contains(&format!("{name}/{edit}")) {
                ledger.faults.push(format!("{CLAIMS}: no row names the edit crates/{name}/must-fail/{edit}.edit"));
            }
        }
        for f in functions(name).into_iter().filter(|f| f.public) {
            let full = format!("{name}::{}", f.name);
            if !ledger.functions.contains(&full) {
                ledger.faults.push(format!("{CLAIMS}: the public function {full} is in neither list"));
            }
            if f.untold {
                ledger.faults.push(format!("crates/{name}/src: no ensures of the public function {full} speaks of what it gives back"));
            }
            if ["vuzgari", "vuzgari_c"].contains(&name.as_str()) && f.requires {
                ledger.faults.push(format!("crates/{name}/src: the C call {full} requires something"));
            }
        }
    }
    dependencies(&mut ledger);
    ledger.faults.iter().for_each(|fault| println!("ledger: {fault}"));
    let Ledger { rows, names, edits, functions, faults } = ledger;
    println!("ledger: {rows} rows, {names} names, {} edits, {} public functions, {} faults", edits.len(), functions.len(), faults.len());
    exit(i32::from(!faults.is_empty()));
}
