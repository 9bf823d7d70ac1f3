//! The values of options, read from their text. Each error is one line that names the option.

use std::ffi::OsString;
use std::net::SocketAddr;
use std::time::Duration;

/// A user and a group, where they are named.
pub type Owner = (Option<u32>, Option<u32>);

/// The value as text.
pub fn text(name: &str, value: OsString) -> Result<String, String> {
    let wrong = |value: OsString| format!("{name}: {} is not UTF-8", value.to_string_lossy());
    value.into_string().map_err(wrong)
}

/// An address with a port.
pub fn address(text: &str) -> Result<SocketAddr, String> {
    let wrong = |_| format!("{text} is no address and port, such as 127.0.0.1:7070");
    text.replace("localhost:", "127.0.0.1:")
        .parse()
        .map_err(wrong)
}

/// A number.
pub fn number(name: &str, text: &str) -> Result<usize, String> {
    let wrong = |_| format!("{name} wants a number, not {text}");
    text.parse().map_err(wrong)
}

/// A number of which 0 means that there is no limit.
pub fn limit(name: &str, text: &str) -> Result<usize, String> {
    Ok(match number(name, text)? {
        0 => usize::MAX,
        limit => limit,
    })
}

/// Seconds up to a day.
pub fn seconds(name: &str, least: usize, text: &str) -> Result<Duration, String> {
    match number(name, text)? {
        n if (least..=86_400).contains(&n) => Ok(Duration::from_secs(n as u64)),
        n => Err(format!("{name} wants {least} to 86400 seconds, not {n}")),
    }
}

/// The permission bits of a file.
pub fn mode(name: &str, text: &str) -> Result<u32, String> {
    match u32::from_str_radix(text, 8) {
        Ok(mode) if mode <= 0o777 => Ok(mode),
        _ => Err(format!("{name} wants 0000 to 0777 in octal, not {text}")),
    }
}

/// A user and a group with a colon between them.
pub fn owner(text: &str) -> Result<Owner, String> {
    let (user, group) = text.split_once(':').unwrap_or((text, ""));
    Ok((
        id("/etc/passwd", "user", user)?,
        id("/etc/group", "group", group)?,
    ))
}

/// The number of a user or group: itself, or by its name in the file.
fn id(file: &str, sort: &str, name: &str) -> Result<Option<u32>, String> {
    if name.is_empty() {
        return Ok(None);
    }
    if let Ok(number) = name.parse() {
        return Ok(Some(number));
    }
    let table = std::fs::read_to_string(file).map_err(|error| format!("{file}: {error}"))?;
    let found = table.lines().find_map(|line| {
        let mut fields = line.split(':');
        let known = fields.next()? == name;
        known.then(|| fields.nth(1)?.parse().ok())?
    });
    found
        .map(Some)
        .ok_or_else(|| format!("there is no {sort} {name} in {file}"))
}
