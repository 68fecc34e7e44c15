//! The outside clips: accepted, sent and received as they are.

use std::fs;
use std::path::PathBuf;

use reference::block::BLOCK_LENGTH;
use reference::format::Format;
use reference::lister::Vault;
use reference::receiver::Answer;
use reference::reconstruction::reconstruct;
use reference::refusal::Refusal;
use reference::sender::Sender;
use reference::stream::pictures;

fn clips() -> Vec<(String, Format, Vec<u8>)> {
    let folder = PathBuf::from(env!("CARGO_MANIFEST_DIR")).join("../clips");
    fs::read_dir(folder)
        .expect("the folder of clips")
        .map(|entry| entry.expect("a clip").path())
        .filter(|path| path.extension().is_some_and(|kind| kind == "h261"))
        .map(|path| {
            let name = path.file_name().unwrap().to_string_lossy().to_string();
            let format = if name.contains("qcif") {
                Format::Qcif
            } else {
                Format::Cif
            };
            (name, format, fs::read(path).expect("a clip"))
        })
        .collect()
}

/// Sender, blocks and receiver give the samples of the plain chain of pictures.
#[test]
fn every_clip_is_sent_and_received() {
    let clips = clips();
    assert!(clips.len() > 20);
    for (name, format, raw) in clips {
        let read = pictures(&raw, format);
        if name.starts_with("above-limit") {
            assert!(read.len() == 1 && read[0].answer == Err(Refusal::plain(2)));
            continue;
        }
        let mut sender = Sender::open(format, 3).unwrap();
        let mut first = vec![1; format.store_length()];
        let mut second = vec![2; format.store_length()];
        let mut out = vec![0; format.sent_length()];
        let mut vault = Vault::new(format);
        let mut store = vec![128; format.store_length()];
        let mut since_refresh = 12;
        for (number, picture) in read.into_iter().enumerate() {
            let description = picture.answer.unwrap();
            since_refresh = if description.is_refresh() {
                0
            } else {
                since_refresh + 1
            };
            // A refresh at first, and then one of twelve at least.
            assert!(since_refresh < 12, "{name}");
            store = reconstruct(&description, &store);
            let slices = (
                &description.head()[..],
                &description.macroblock_bytes()[..],
                &description.level_bytes()[..],
            );
            let sent = sender.send(slices, &mut first, &mut second, &mut out);
            let count = sent.unwrap().blocks;
            let mut last = Answer::Lost;
            for block in out.chunks(BLOCK_LENGTH).take(count) {
                last = vault.receive(block);
            }
            let finished =
                matches!(last, Answer::Finished(picture, _) if picture as usize == number);
            assert!(finished, "{name}");
            assert!(vault.shown(&last) == Some(&store[..]), "{name} {number}");
        }
    }
}
