//! Document 02, A.2: the card, with A.3's windows, asked of its model and of the restatement.

use oracle::card::{Card, CardLayer, MOST, read};
use oracle::lines::{Outcome, Request, ask};
use oracle::model::Reference;
use oracle::random::Random;
use oracle::reference;
use oracle::request::{CardAnswer, Side};
use oracle::restated::{Reading, Restated};

const RESTATED: Restated = Restated { reading: Reading::RIGHT };
const SIDES: [&dyn Side; 2] = [&Reference, &RESTATED];

const CARD: &str = "(tray 1 2 1 3)\n(layer over (place 0 3 -2) (flags 62) (source 0 2 1 3) (args 3f000000))\n";

/// A text's answer and the two lists, which hold 7 and 9 before.
fn answered(side: &dyn Side, text: &str) -> (CardAnswer, Vec<i64>, Vec<u32>) {
    let (mut table, mut args) = (vec![7; 224], vec![9; 64]);
    let answer = side.read_card(text.as_bytes(), &mut table, &mut args);
    (answer, table, args)
}

#[test]
fn own_card() {
    for side in SIDES {
        let (answer, table, args) = answered(side, CARD);
        assert_eq!(answer, CardAnswer { number: 0, line: 0, width: 2, height: 1, channels: 3, layers: 1 });
        assert_eq!(table[..14], [0, 0, 3, -2, 62, 0, 2, 1, 3, 1, 0, 0, 2048, 2048]);
        assert_eq!(args[..4], [0x3f00_0000, 0, 0, 0]);
        assert!(table[14..].iter().all(|n| *n == 0) && args[4..].iter().all(|n| *n == 0));
    }
}

/// Refusals name the first line that is at fault, leave the lists as they were and answer nothing else.
#[test]
fn refusals() {
    let layer = CARD.lines().nth(1).unwrap();
    let layers = |count: usize| format!("(tray 1 2 1 3)\n{}", format!("{layer}\n").repeat(count));
    let bad_third = layers(17).replacen(&format!("{layer}\n{layer}"), &format!("{layer}\n{layer} "), 1);
    let texts: [(&str, u64); 10] = [
        ("", 1),
        ("\n", 1),
        (layer, 1),
        ("(tray 1 2 1 3)", 1),
        ("(tray 2 2 1 3)\n", 1),
        ("(tray 1 2 1 3)\n\n", 2),
        (&CARD[..CARD.len() - 1], 2),
        (&layers(17), 18),
        (&bad_third, 3),
        (&(layers(16) + "("), 18),
    ];
    for side in SIDES {
        for (text, line) in texts {
            let refused = (CardAnswer::refused(line), vec![7; 224], vec![9; 64]);
            assert_eq!(answered(side, text), refused, "{text}");
        }
        assert_eq!(answered(side, &layers(16)).0.layers, 16);
        assert_eq!(side.read_card(CARD.as_bytes(), &mut [7; 160], &mut [9; 64]), CardAnswer::refused(0));
        assert_eq!(side.read_card(b"", &mut [7; 223], &mut [9; 64]), CardAnswer::refused(0));
        assert_eq!(side.read_card(CARD.as_bytes(), &mut [7; 224], &mut [9; 65]), CardAnswer::refused(0));
    }
}

/// Each of the 83 names fills its operator's number, and no other spelling of it is taken.
#[test]
fn names() {
    assert_eq!(reference::names().count(), 83);
    for name in reference::names() {
        let operator = reference::from_name(name.as_bytes()).unwrap() as i64;
        let mut other = name.to_string();
        other.insert(1, '-');
        for side in SIDES {
            let (answer, table, _) = answered(side, &CARD.replacen("over", name, 1));
            assert_eq!((answer.number, table[0]), (0, operator), "{name}");
            for other in [&name.to_uppercase(), &other] {
                assert_eq!(answered(side, &CARD.replacen("over", other, 1)).0, CardAnswer::refused(2), "{other}");
            }
        }
    }
}

#[test]
fn prints_are_read_back() {
    let mut random = Random::new(1);
    for _ in 0..10_000 {
        let mut card = random.card_value();
        card.layers.truncate(16);
        assert_eq!(read(card.print().as_bytes()), Ok(card));
    }
    let layer = |n: i64, count: usize| CardLayer {
        name: "over".to_string(),
        place: [n; 3],
        flags: n,
        source: [n; 4],
        args: vec![u32::MAX; count],
    };
    for n in [MOST, -MOST, 0] {
        let card = Card { tray: [n; 3], layers: vec![layer(n, 4)] };
        assert_eq!(read(card.print().as_bytes()), Ok(card));
    }
    for card in [layer(MOST + 1, 4), layer(-MOST - 1, 4), layer(0, 5)] {
        assert_eq!(read(Card { tray: [0; 3], layers: vec![card] }.print().as_bytes()), Err(2));
    }
}

/// The model and the restatement, which share no line, agree; and half of the random texts are accepted, so that they show something.
#[test]
fn two_readings() {
    let mut random = Random::new(2);
    let (texts, mut accepted) = (50_000, 0);
    for _ in 0..texts {
        let request = random.card();
        let outcome = ask(&Reference, &request);
        if outcome != ask(&RESTATED, &request) {
            let Request::Card { text, .. } = request else { unreachable!("only cards are asked") };
            panic!("\"{}\"", text.escape_ascii());
        }
        accepted += matches!(outcome, Outcome::Card { answer, .. } if answer.number == 0) as u32;
    }
    assert!((texts * 2 / 5..texts * 3 / 5).contains(&accepted), "{accepted} of {texts}");
}
