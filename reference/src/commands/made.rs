//! The subcommands that make inputs and expected outputs from a seed.

/// A file's name and its bytes.
pub type File = (String, Vec<u8>);

/// An input and what is expected of it, under the subcommand's name.
#[derive(Default)]
pub struct Made {
    pub input: Vec<u8>,
    pub expected: Vec<u8>,
}

pub fn files(name: &str, seed: u64, count: usize) -> Option<Vec<File>> {
    let made = match name {
        "words" => return Some(super::words::files(seed, count)),
        "lists" => return Some(super::lists::files(seed, count)),
        "captures" => return Some(super::captures::files(seed, count)),
        "packs" => return Some(super::packs::files(seed, count)),
        "salvages" => return Some(super::salvages::files(seed, count)),
        "h263-salvages" => return Some(super::salvages::files_of_both(seed, count)),
        "h263-lists" => return Some(super::h263::lists::files(seed, count)),
        "h263-packs" => return Some(super::h263::packs::files(seed, count)),
        "h263-streams" => return Some(super::h263::streams::files(seed, count)),
        "replays" => super::captures::make(seed, count),
        "blocks" => super::blocks::make(seed, count),
        "render" => super::render::make(seed, count),
        "pictures" => super::pictures::make(seed, count),
        "write" => super::write::make(seed, count),
        "send" => super::send::make(seed, count),
        "deliver" => super::deliver::make(seed, count),
        "h263-deliver" => super::deliver::make_of_both(seed, count),
        "h263-send" => super::h263::send::make(seed, count),
        "h263-words" => super::h263::words::make(seed, count),
        "h263-render" => super::h263::render::make(seed, count),
        "h263-pictures" => super::h263::pictures::make(seed, count),
        "h263-write" => super::h263::write::make(seed, count),
        _ => return None,
    };
    Some(vec![
        (format!("{name}.input"), made.input),
        (format!("{name}.expected"), made.expected),
    ])
}
