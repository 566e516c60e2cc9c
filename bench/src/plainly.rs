//! Prints the crates of the portal as one plain Rust library, without contracts and proofs: what a change would gain can be
//! measured before it is proved. With `--apart` no function is put into another, so that a profile shows each.
//!
//!     plainly [--apart] CRATE..

use std::fs::read_to_string;

/// Whether a line begins a clause of a contract: `requires {` or `ensures {`, or with a name before the brace.
fn begins_clause(text: &str) -> bool {
    let Some(rest) = text.strip_prefix("requires ").or_else(|| text.strip_prefix("ensures ")) else { return false };
    let name = rest.split('{').next().unwrap_or("").trim_end();
    rest.contains('{') && name.chars().all(|c| c.is_ascii_alphanumeric() || c == '_')
}

/// The source without its ghost lines, its contracts and what it says to the prover.
fn plain(source: &str) -> String {
    let mut kept = String::new();
    let mut depth = 0i32;
    let mut ghost = false;
    for line in source.lines() {
        let text = line.trim_start();
        if begins_clause(text) || depth > 0 {
            depth += text.matches('{').count() as i32 - text.matches('}').count() as i32;
            if depth == 0 && text.ends_with(';') {
                kept.push_str(";\n"); // the clause of a trait's method, which has no body
            }
            continue;
        }
        if ghost || text.starts_with("ghost ") {
            ghost = !text.ends_with(';');
            continue;
        }
        if text.starts_with("#![tactic(") || text.starts_with("#[tactic(") {
            continue;
        }
        kept.push_str(line);
        kept.push('\n');
    }
    kept
}

/// Whether a line begins a function that other functions call.
fn begins_function(line: &str) -> bool {
    let text = line.trim_start();
    text.starts_with("fn ") || text.starts_with("pub fn ")
}

/// The name of the type that a line begins.
fn type_begun(line: &str) -> Option<&str> {
    let text = line.strip_prefix("pub ").unwrap_or(line);
    let rest = text.strip_prefix("struct ").or_else(|| text.strip_prefix("enum "))?;
    rest.split(|c: char| !c.is_alphanumeric() && c != '_').next()
}

/// What is derived, where a line says so.
fn derived(line: &str) -> Option<Vec<&str>> {
    let list = line.strip_prefix("#[derive(")?.strip_suffix(")]")?;
    Some(list.split(", ").collect())
}

fn main() {
    let words: Vec<String> = std::env::args().skip(1).collect();
    let apart = words.iter().any(|word| word == "--apart");
    println!("#![allow(warnings)]");
    for name in words.iter().filter(|word| *word != "--apart") {
        let source = read_to_string(format!("crates/{}/src/lib.rt", name)).expect("a crate's source");
        println!("pub mod {} {{\nuse crate::*;", name);
        let mut traits: Vec<&str> = Vec::new();
        for line in plain(&source).lines() {
            if let Some(list) = derived(line) {
                traits = list;
                continue;
            }
            if let Some(name) = type_begun(line) {
                // Each type is `Copy` here, and made of zeros by default: Rust has no `Default` of long arrays.
                if traits.contains(&"Default") {
                    println!("impl Default for {name} {{ fn default() -> Self {{ unsafe {{ std::mem::zeroed() }} }} }}");
                }
                traits.retain(|t| !["Clone", "Copy", "Default", "Drop"].contains(t));
                traits.extend(["Clone", "Copy"]);
                println!("#[derive({})]", traits.join(", "));
                traits.clear();
            }
            if apart && begins_function(line) {
                println!("#[inline(never)]");
            }
            println!("{}", line);
        }
        println!("}}");
    }
}
