//! The command lines of the programs.

use crate::parts::{PARTS, Part};

/// The next argument as the value of `option`.
pub fn value(option: &str, args: &mut impl Iterator<Item = String>) -> Result<String, String> {
    args.next().ok_or_else(|| format!("{option} needs a value"))
}

pub fn number(option: &str, args: &mut impl Iterator<Item = String>) -> Result<u64, String> {
    let text = value(option, args)?;
    text.parse()
        .map_err(|_| format!("{option} needs a whole number below 2^64, not '{text}'"))
}

pub fn part(name: &str) -> Result<&'static dyn Part, String> {
    let found = PARTS.iter().find(|part| part.name() == name);
    found.copied().ok_or_else(|| {
        let names: Vec<&str> = PARTS.iter().map(|part| part.name()).collect();
        format!("unknown part '{name}'; the parts are: {}", names.join(", "))
    })
}
