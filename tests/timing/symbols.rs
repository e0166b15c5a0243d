//! Where functions and variables of a linked program stand.

use std::path::Path;
use std::process::Command;

/// What a tool prints on standard output.
pub fn output(tool: &str, words: &[&str], file: &Path) -> String {
    let output = Command::new(tool).args(words).arg(file).output();
    let output = output.unwrap_or_else(|error| panic!("{tool}: {error}"));
    assert!(
        output.status.success(),
        "{tool} of {}: {}",
        file.display(),
        output.status
    );
    String::from_utf8_lossy(&output.stdout).into_owned()
}

struct Symbol {
    start: u64,
    size: u64,
    name: String,
}

/// Symbols with a size, by address.
pub struct Symbols(Vec<Symbol>);

fn symbol(line: &str) -> Option<Symbol> {
    let mut words = line.splitn(4, ' ');
    let mut number = || u64::from_str_radix(words.next()?, 16).ok();
    let (start, size) = (number()?, number()?);
    let name = words.nth(1)?.to_string();
    Some(Symbol { start, size, name })
}

impl Symbols {
    pub fn of(program: &Path) -> Symbols {
        let text = output("nm", &["-S", "-n", "--defined-only"], program);
        Symbols(text.lines().filter_map(symbol).collect())
    }

    pub fn address(&self, name: &str) -> u64 {
        let found = self.0.iter().find(|symbol| symbol.name == name);
        found.unwrap_or_else(|| panic!("no symbol {name}")).start
    }

    /// The name of what stands at an address.
    pub fn name(&self, address: u64) -> &str {
        let after = self.0.partition_point(|symbol| symbol.start <= address);
        let within = |symbol: &&Symbol| address - symbol.start < symbol.size;
        self.0[..after]
            .last()
            .filter(within)
            .map_or("no function", |symbol| &symbol.name)
    }
}
