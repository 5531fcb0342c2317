//! The converter of old tables (02, T-13): tabs outside comments become spaces.

use crate::body::comment_start;
use crate::file::body_extent;

/// The body with each tab outside a comment replaced by a space.
pub fn converted(body: &[u8]) -> Vec<u8> {
    let line = |line: &[u8]| {
        let said = comment_start(line).unwrap_or(line.len());
        let spaced = line[..said].iter().map(|byte| if *byte == b'\t' { b' ' } else { *byte });
        spaced.chain(line[said..].iter().copied()).collect::<Vec<u8>>()
    };
    body.split(|byte| *byte == b'\n').map(line).collect::<Vec<_>>().join(&b'\n')
}

/// The file with the body of its table converted; a file whose body is not to be found stays as it is.
pub fn converted_file(file: &[u8]) -> Vec<u8> {
    match body_extent(file) {
        None => file.to_vec(),
        Some((from, to)) => [&file[..from], &converted(&file[from..to]), &file[to..]].concat(),
    }
}
