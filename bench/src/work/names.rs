//! Small maps with text keys, for every sixteen pairs one: each is filled, asked five times,
//! changed once, and dropped.
use super::with_lens;
use crate::multimap::Names;
use crate::numbers::{START, choice, mix, value};

/// Names of headers. A request has the first twelve, and the first two of them twice.
const HEADERS: [&str; 40] = [
    "accept",
    "cookie",
    "host",
    "user-agent",
    "accept-language",
    "accept-encoding",
    "connection",
    "referer",
    "cache-control",
    "content-type",
    "content-length",
    "if-none-match",
    "date",
    "etag",
    "vary",
    "server",
    "expires",
    "location",
    "set-cookie",
    "retry-after",
    "last-modified",
    "content-language",
    "content-encoding",
    "content-location",
    "content-range",
    "accept-ranges",
    "transfer-encoding",
    "if-modified-since",
    "if-match",
    "if-range",
    "authorization",
    "proxy-authenticate",
    "proxy-authorization",
    "www-authenticate",
    "origin",
    "pragma",
    "upgrade",
    "trailer",
    "x-forwarded-for",
    "x-request-id",
];

/// A name that none of the maps has.
const ABSENT: &str = "keep-alive";

const FIELDS: [&str; 5] = ["name", "email", "phone", "subject", "message"];

const SETTINGS: [&str; 8] = [
    "filemode",
    "bare",
    "logallrefupdates",
    "ignorecase",
    "precomposeunicode",
    "symlinks",
    "autocrlf",
    "editor",
];

/// The headers of a request.
pub fn request_headers<M: Names>(n: u64, seed: u64) -> u64 {
    maps::<M>(&HEADERS[..12], 14, n, seed)
}

/// The fields of a form.
pub fn form_fields<M: Names>(n: u64, seed: u64) -> u64 {
    maps::<M>(&FIELDS, 5, n, seed)
}

/// A section of a configuration.
pub fn config_section<M: Names>(n: u64, seed: u64) -> u64 {
    maps::<M>(&SETTINGS, 8, n, seed)
}

pub fn forty_headers<M: Names>(n: u64, seed: u64) -> u64 {
    maps::<M>(&HEADERS, 40, n, seed)
}

fn maps<M: Names>(names: &[&str], pairs: u64, n: u64, seed: u64) -> u64 {
    let firsts = (0..n / 16 * 64).step_by(64);
    firsts.fold(START, |checksum, first| {
        one_map::<M>(names, pairs, first, seed, checksum)
    })
}

/// Its pairs have the numbers from `first` on.
#[inline(never)]
fn one_map<M: Names>(names: &[&str], pairs: u64, first: u64, seed: u64, start: u64) -> u64 {
    let mut map = M::default();
    let mut checksum = start;
    let count = names.len() as u64;
    for i in 0..pairs {
        let name = names[(i % count) as usize];
        checksum = mix(
            checksum,
            u64::from(map.append(name, value(seed, first + i))),
        );
    }
    for i in first..first + 4 {
        let name = names[choice(seed, i, count) as usize];
        checksum = mix(checksum, map.get(name).unwrap_or(1));
    }
    checksum = mix(checksum, map.get(ABSENT).unwrap_or(1));
    let name = names[choice(seed, first + 4, count) as usize];
    let old = map.insert(name, value(seed, first + pairs));
    with_lens(mix(checksum, old.unwrap_or(1)), &map.lens())
}
