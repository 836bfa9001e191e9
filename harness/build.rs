//! Reads the original's files from the folder that BASIC_TEXT_SRC names, makes the changes of `changes.rs`, and writes
//! the changed modules, with a list of them that the library includes, to cargo's output folder.

mod changes;

use changes::{Change, Edit, CHANGES, MODULES};
use std::error::Error;
use std::path::{Path, PathBuf};
use std::{env, fs};

fn main() -> Result<(), Box<dyn Error>> {
    println!("cargo::rerun-if-env-changed=BASIC_TEXT_SRC");
    println!("cargo::rerun-if-changed=build.rs");
    println!("cargo::rerun-if-changed=changes.rs");
    let sources = PathBuf::from(variable("BASIC_TEXT_SRC")?);
    let out = PathBuf::from(variable("OUT_DIR")?);
    let harness = PathBuf::from(variable("CARGO_MANIFEST_DIR")?);

    let unused = CHANGES.iter().find(|change| MODULES.iter().all(|(module, ..)| *module != change.module));
    if let Some(change) = unused {
        return Err(failure(change, "there is no such module").into());
    }
    let mut list = String::new();
    for (module, file, child) in MODULES {
        let mut text = changed(&sources, module, file)?;
        if let Some(child) = child {
            text.push_str(&child_module(&harness, child));
        }
        write_if_new(&out.join(format!("{module}.rs")), &text)?;
        list.push_str(&module_line(module));
    }
    write_if_new(&out.join("modules.rs"), &list)?;
    Ok(())
}

/// A variable of the environment, or an error that names it.
fn variable(name: &str) -> Result<String, String> {
    env::var(name).map_err(|error| format!("{name}: {error}"))
}

/// The file of a module with the module's changes made.
fn changed(sources: &Path, module: &str, file: &str) -> Result<String, String> {
    let path = sources.join(file);
    println!("cargo::rerun-if-changed={}", path.display());
    let mut text = fs::read_to_string(&path).map_err(|error| format!("{}: {error}", path.display()))?;
    for change in CHANGES.iter().filter(|change| change.module == module) {
        text = apply(change, &text)?;
    }
    Ok(text)
}

/// One change made.
fn apply(change: &Change, text: &str) -> Result<String, String> {
    let (start, end, new) = match change.edit {
        Edit::Swap(old, new) => {
            let start = once(change, text, old)?;
            (start, start + old.len(), new)
        }
        Edit::Cut(from, to, new) => (once(change, text, from)?, once(change, text, to)?, new),
    };
    if end < start {
        return Err(failure(change, "its two texts stand in the other order"));
    }
    Ok([&text[..start], new, &text[end..]].concat())
}

/// The place of the one occurrence of `part`.
fn once(change: &Change, text: &str, part: &str) -> Result<usize, String> {
    match text.matches(part).count() {
        1 => Ok(text.find(part).unwrap_or(0)),
        count => Err(failure(change, &format!("{part:?} stands there {count} times, not once"))),
    }
}

fn failure(change: &Change, why: &str) -> String {
    format!("change {:?} of {}: {why}", change.name, change.module)
}

/// The line that makes a file of the harness a child of the module.
fn child_module(harness: &Path, child: &str) -> String {
    let path = harness.join("src").join(format!("{child}.rs"));
    format!("\n#[path = {path:?}]\npub mod {child};\n")
}

/// The original has names that the changes leave unused, and settings of its own.
fn module_line(module: &str) -> String {
    let allowed = "dead_code, unused_imports, unused_unsafe, unexpected_cfgs";
    format!("#[allow({allowed})]\n#[path = \"{module}.rs\"]\npub mod {module};\n")
}

/// Writes a file unless it holds the text already, so that an unchanged module is not compiled again.
fn write_if_new(path: &Path, text: &str) -> Result<(), Box<dyn Error>> {
    if fs::read_to_string(path).ok().as_deref() != Some(text) {
        fs::write(path, text)?;
    }
    Ok(())
}
