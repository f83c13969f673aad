//! Document 02, A.4: the names end to end, asked of the restatement.

use oracle::name_texts::kinds;
use oracle::reference;
use oracle::request::Side;
use oracle::restated::{Reading, Restated, wrong};

#[test]
fn lengths() {
    assert_eq!(reference::names().count(), 83);
    assert_eq!(reference::names().map(str::len).sum::<usize>(), 624);
}

/// `stream names` would find each misreading of the list, by texts that are made of the names.
#[test]
fn misreadings() {
    let made = kinds().into_iter().filter(|(kind, _)| *kind != "texts of up to three bytes");
    let texts: Vec<Vec<u8>> = made.flat_map(|(_, texts)| texts).collect();
    let answers: Vec<Option<u64>> = texts.iter().map(|text| reference::from_name(text)).collect();
    let first = |wrong| {
        let side = Restated { reading: Reading { wrong } };
        texts.iter().zip(&answers).find(|(text, answer)| side.from_name(text) != **answer)
    };
    assert_eq!(first(None), None);
    let of_list = wrong::all().into_iter().filter(|(_, group, _)| *group == "names end to end");
    for (wrong, _, text) in of_list {
        assert!(first(Some(wrong)).is_some(), "{wrong:?}: {text}");
    }
}
