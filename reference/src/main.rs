//! The reference's command line. Formats are described in README.md.

use std::io::{self, Read, Write};
use std::process::ExitCode;

use reference::kind::{Kind, Size};

mod commands;

use commands::streams::Frames;

const USAGE: &str = "usage:
  reference words|blocks|render|pictures|write|send|deliver|lists|packs|salvages|captures|replays SEED COUNT FOLDER
  reference h263-words|h263-render|h263-pictures|h263-write|h263-send|h263-deliver SEED COUNT FOLDER
  reference h263-lists|h263-packs|h263-salvages|h263-streams SEED COUNT FOLDER
  reference due
  reference ticks > RECORDS
  reference annex-a > COEFFICIENTS
  reference annex-a-figures < OUTPUTS
  reference delivered < SESSIONS
  reference list [sqcif|qcif|cif] < BLOCKS
  reference reads sqcif|qcif|cif < BLOCKS
  reference frames sqcif|qcif|cif [timed] < BLOCKS > YUV4MPEG2
  reference salvage KIND OLD NEW LIST > BLOCKS
  reference record < STREAM > CAPTURE
  reference replay < CAPTURE > STREAM
  reference pack KIND CLIP < RAW > BLOCKS
  reference decode KIND < RAW > SAMPLES
  reference compare KIND RAW SAMPLES
KIND is qcif or cif for H.261, h263-sqcif, h263-qcif or h263-cif for H.263";

/// What went wrong, in words for standard error.
type Outcome = Result<(), String>;

fn main() -> ExitCode {
    let arguments: Vec<String> = std::env::args().skip(1).collect();
    let arguments: Vec<&str> = arguments.iter().map(String::as_str).collect();
    match run(&arguments) {
        Ok(()) => ExitCode::SUCCESS,
        Err(message) => {
            eprintln!("{message}");
            ExitCode::FAILURE
        }
    }
}

fn run(arguments: &[&str]) -> Outcome {
    match *arguments {
        ["due"] => output(commands::due::lines().as_bytes()),
        ["ticks"] => output(&commands::due::records()),
        ["annex-a"] => output(&commands::annex_a::coefficients()),
        ["annex-a-figures"] => {
            let text = commands::annex_a::figures(&input()?)?;
            output(text.as_bytes())
        }
        ["delivered"] => {
            let expected = commands::deliver::expected(&input()?);
            output(&expected.ok_or("sessions that end inside a call")?)
        }
        ["list"] => output(reference::lister::list(Size::Qcif, &input()?).as_bytes()),
        ["list", size] => output(reference::lister::list(sized(size)?, &input()?).as_bytes()),
        ["reads", size] => {
            let lines = reference::lister::reads(sized(size)?, &input()?);
            output(lines.as_bytes())
        }
        ["frames", size] => {
            let frames = commands::streams::frames(sized(size)?, &input()?, Frames::Each);
            output(&frames)
        }
        ["frames", size, "timed"] => {
            let frames = commands::streams::frames(sized(size)?, &input()?, Frames::Timed);
            output(&frames)
        }
        ["pack", kind, clip] => {
            let clip = clip.parse().map_err(|_| USAGE)?;
            let packed = commands::streams::pack(named(kind)?, clip, &input()?)?;
            eprint!("{}", packed.errors);
            output(&packed.blocks)
        }
        ["salvage", kind, old, new, list] => {
            let number = |word: &str| word.parse().map_err(|_| USAGE);
            let (old, new) = (number(old)?, number(new)?);
            let written = commands::salvages::written(named(kind)?, old, new, &file(list)?);
            eprint!("{}", written.log);
            output(&written.blocks)
        }
        ["record"] => output(&commands::captures::recorded(&input()?)),
        ["replay"] => {
            let replayed = commands::captures::replayed(&reference::line::Code::new(), &input()?);
            eprint!("{}", replayed.errors);
            output(&replayed.stream)
        }
        ["decode", kind] => output(&match named(kind)? {
            Kind::H261(format) => commands::streams::decode(format, &input()?),
            Kind::H263(format) => commands::h263::streams::decode(format, &input()?),
        }),
        ["compare", kind, raw, samples] => {
            let (raw, samples) = (file(raw)?, file(samples)?);
            let text = match named(kind)? {
                Kind::H261(format) => commands::streams::compare(format, &raw, &samples)?,
                Kind::H263(format) => commands::h263::streams::compare(format, &raw, &samples)?,
            };
            output(text.as_bytes())
        }
        [name, seed, count, folder] => {
            let seed = seed.parse().map_err(|_| USAGE)?;
            let count = count.parse().map_err(|_| USAGE)?;
            let files = commands::made::files(name, seed, count).ok_or(USAGE)?;
            std::fs::create_dir_all(folder).map_err(|error| error.to_string())?;
            for (name, bytes) in files {
                let path = format!("{folder}/{name}");
                std::fs::write(&path, bytes).map_err(|error| format!("{path}: {error}"))?;
            }
            Ok(())
        }
        _ => Err(USAGE.to_string()),
    }
}

fn named(kind: &str) -> Result<Kind, String> {
    Kind::from_name(kind).ok_or_else(|| USAGE.to_string())
}

fn sized(size: &str) -> Result<Size, String> {
    Size::from_name(size).ok_or_else(|| USAGE.to_string())
}

fn input() -> Result<Vec<u8>, String> {
    let mut bytes = Vec::new();
    let outcome = io::stdin().lock().read_to_end(&mut bytes);
    outcome.map_err(|error| error.to_string())?;
    Ok(bytes)
}

fn file(path: &str) -> Result<Vec<u8>, String> {
    std::fs::read(path).map_err(|error| format!("{path}: {error}"))
}

fn output(bytes: &[u8]) -> Outcome {
    let outcome = io::stdout().lock().write_all(bytes);
    outcome.map_err(|error| error.to_string())
}
