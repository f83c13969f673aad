//! Cards: what the library reads in a text and where it finds it out of form, that nothing is written then, and that what
//! the crate prints is read back.

use tray::raw::{self, CardAnswers};
use tray::{job, Card, CardFault, Error, Fault, Flags, Gravity, JobNumber, Layer, Memory, NoCard, Operator};
use tray::{Refusal, Source, Stack, Window, ARGUMENTS, COLUMNS, LAYERS};

const TRAY: &str = "(tray 1 2 1 3)\n";
const LAYER: &str = "(layer over (place 0 3 -2) (flags 62) (source 0 2 1 3) (args 3f000000))\n";

/// Numbers that look random and are the same in each run.
struct Numbers(u64);

impl Numbers {
    fn below(&mut self, end: u64) -> u64 {
        self.0 = self.0.wrapping_mul(6364136223846793005).wrapping_add(1442695040888963407);
        (self.0 >> 32) % end
    }

    /// A number of at most ten digits, each count of digits and both signs as likely.
    fn number(&mut self) -> i64 {
        let digits = self.below(11) as u32;
        let size = 10i64.pow(digits) - 1 - self.below(10u64.pow(digits).min(1 << 31)) as i64;
        [size, -size][self.below(2) as usize]
    }
}

/// A card with layers of which each number is any, and the window the full one, which is a card's.
fn any(numbers: &mut Numbers, layers: usize) -> Card {
    let (mut table, mut args) = (vec![], vec![]);
    for _ in 0..layers {
        let count = numbers.below(5);
        table.push(numbers.below(70) as i64);
        table.extend((1..9).map(|_| numbers.number()));
        table.push(count as i64);
        table.extend(Window::FULL.numbers());
        args.extend((0..ARGUMENTS as u64).map(|k| if k < count { numbers.below(1 << 32) as u32 } else { 0 }));
    }
    let [width, height, channels] = [(); 3].map(|()| numbers.number());
    Card { width, height, channels, stack: Stack { table, args } }
}

fn refused(text: &str) -> Option<u64> {
    Card::read(text.as_bytes()).err().map(|fault| fault.line)
}

#[test]
fn the_card_of_document_02() {
    let card: Card = (TRAY.to_string() + LAYER).parse().unwrap();
    assert_eq!(card.stack.table, [0, 0, 3, -2, 62, 0, 2, 1, 3, 1, 0, 0, 2048, 2048]);
    assert_eq!(card.stack.args, [0x3f00_0000, 0, 0, 0]);
    let layer = Layer {
        offset: (3, -2),
        flags: Flags { tile: false, overlay: true, channels: [true; 4] },
        arguments: vec![0.5],
        ..Layer::new(Operator::Over, Source { first: 0, width: 2, height: 1, channels: 3 })
    };
    assert_eq!(card.to_layers(), Ok(vec![layer.clone()]));
    let made = Card { width: 2, height: 1, channels: 3, stack: Stack::new(&[layer]) };
    assert_eq!(made, card);
    assert_eq!(made.to_text().unwrap(), TRAY.to_string() + LAYER);
    let alone = Card { stack: Stack::default(), ..made };
    assert_eq!(Card::read(TRAY.as_bytes()), Ok(alone.clone()));
    assert_eq!((alone.to_text(), alone.to_layers()), (Ok(TRAY.to_string()), Ok(vec![])));
}

/// Each name and alias fills its operator's number, and only as it is spelled.
#[test]
fn names() {
    let card = |name: &str| TRAY.to_string() + &LAYER.replace("over", name);
    let mut known = 0;
    for operator in Operator::ALL {
        for name in operator.aliases().iter().copied().chain([operator.name()]) {
            let read = Card::read(card(name).as_bytes()).unwrap();
            assert_eq!(read.stack.table[0], operator.number() as i64, "{name}");
            assert!(read.to_text().unwrap().contains(&format!("(layer {operator} (")), "{name}");
            known += 1;
            for spelled in [name.to_uppercase(), format!("{name}x"), name[1..].to_string(), format!("{name}-")] {
                assert_eq!(refused(&card(&spelled)), Some(2), "{spelled}");
            }
        }
    }
    assert_eq!(known, 83);
    for name in ["Over", "soft-light", "soft_light", "soft light", "", "0", "ov\u{e9}r"] {
        assert_eq!(refused(&card(name)), Some(2), "{name}");
    }
}

/// A form of the line, changed in one place.
#[test]
fn lines_out_of_form() {
    let layer = |from: &str, to: &str| {
        assert!(LAYER.contains(from), "{from}");
        TRAY.to_string() + LAYER + &LAYER.replacen(from, to, 1)
    };
    for (from, to) in [
        (" 62", " 062"),
        (" 62", " +62"),
        (" 62", " -0"),
        (" 62", " 12345678901"),
        (" 62", " 6 2"),
        (" 62", " 6.2"),
        (" 62", ""),
        ("-2", "--2"),
        ("-2", "- 2"),
        ("3f000000", "3f00000"),
        ("3f000000", "3f0000000"),
        ("3f000000", "3F000000"),
        ("args 3f000000", "args "),
        ("(args 3f000000)", "(args 1 1 1 1)"),
        ("(args 3f000000)", "(args 00000000 00000000 00000000 00000000 00000000)"),
        (" (flags", "  (flags"),
        (" (flags", "\t(flags"),
        (" (flags 62)", ""),
        ("(flags 62) (source 0 2 1 3)", "(source 0 2 1 3) (flags 62)"),
        ("))\n", ")\n"),
        ("))\n", ")))\n"),
        ("))\n", ")) \n"),
        ("))\n", "))\r\n"),
        ("))\n", "))\n\n"),
        ("))\n", "))"),
    ] {
        let wanted = if to == "))\n\n" { 4 } else { 3 };
        assert_eq!(refused(&layer(from, to)), Some(wanted), "{from} as {to}");
    }
    for tray in [
        "",
        "\n",
        "(tray 1 2 1 3)",
        "(tray 2 2 1 3)\n",
        "(tray 1 2 1)\n",
        "(tray 01 2 1 3)\n",
        "\u{feff}(tray 1 2 1 3)\n",
    ] {
        assert_eq!(refused(tray), Some(1), "{tray}");
    }
    assert_eq!(refused(LAYER), Some(1));
    assert_eq!(refused(&TRAY.repeat(2)), Some(2));
    assert_eq!(Card::read(b"(tray 1 2 1 3)\n\0\n"), Err(CardFault { line: 2 }));
    assert_eq!(Card::read(b"(tray 1 2 1 3\xff)\n"), Err(CardFault { line: 1 }));
}

#[test]
fn as_many_layers_as_a_job_has() {
    let of = |layers: usize| TRAY.to_string() + &LAYER.repeat(layers);
    for layers in [0, 1, LAYERS - 1, LAYERS] {
        let card = Card::read(of(layers).as_bytes()).unwrap();
        assert_eq!((card.stack.layers(), card.stack.table.len()), (layers as i64, layers * COLUMNS));
        assert_eq!(card.to_text(), Ok(of(layers)));
    }
    assert_eq!(refused(&of(LAYERS + 1)), Some(18));
    assert_eq!(refused(&of(LAYERS + 3)), Some(18));
    let third = LAYER.replace("62", "062");
    assert_eq!(refused(&(TRAY.to_string() + LAYER + &third + &LAYER.repeat(LAYERS - 1))), Some(3));
}

/// The library's own answers: both lists as they were where it refuses, and all that is lent written where it does not.
#[test]
fn what_is_written() {
    let called = |text: &str, numbers: usize, words: usize| {
        let (mut table, mut args) = (vec![7; numbers], vec![7; words]);
        let mut answers = CardAnswers { line: 7, width: 7, height: 7, channels: 7, layers: 7 };
        let number = raw::read_card(text.as_bytes(), &mut table, &mut args, &mut answers);
        (number, answers, table, args)
    };
    let (all, four) = (LAYERS * COLUMNS, LAYERS * ARGUMENTS);
    let (good, late) = (&[TRAY, LAYER].concat()[..], &[TRAY, LAYER, "(layer"].concat()[..]);
    for (text, numbers, words, line) in [
        (late, all, four, 3),
        ("", all, four, 1),
        (good, all - 1, four, 0),
        (good, all + 1, four, 0),
        (good, all, four - 1, 0),
        (good, all, four + 1, 0),
        (good, 0, 0, 0),
        (good, COLUMNS, ARGUMENTS, 0),
        (late, all, 0, 0),
        ("", 0, four, 0),
    ] {
        let refused = CardAnswers { line, ..CardAnswers::default() };
        assert_eq!(called(text, numbers, words), (12, refused, vec![7; numbers], vec![7; words]), "{text}, {numbers}");
    }
    let (mut table, mut args) = (vec![0; all], vec![0; four]);
    table[..COLUMNS].copy_from_slice(&[0, 0, 3, -2, 62, 0, 2, 1, 3, 1, 0, 0, 2048, 2048]);
    args[0] = 0x3f00_0000;
    let answers = CardAnswers { line: 0, width: 2, height: 1, channels: 3, layers: 1 };
    assert_eq!(called(good, all, four), (0, answers, table, args));
}

#[test]
fn printed_and_read_back() {
    let mut numbers = Numbers(1);
    for round in 0..2000 {
        let card = any(&mut numbers, round % (LAYERS + 1));
        let text = card.to_text().unwrap();
        assert_eq!(Card::read(text.as_bytes()), Ok(card), "{text}");
    }
    // Arguments that do not count are no part of a card.
    let mut card = any(&mut numbers, 2);
    let text = card.to_text().unwrap();
    for (row, words) in card.stack.table.chunks(COLUMNS).zip(card.stack.args.chunks_mut(ARGUMENTS)) {
        words[row[9] as usize..].fill(1);
    }
    assert_eq!(card.to_text(), Ok(text));
}

/// What no text says is not printed, and the first line that would be wrong is named.
#[test]
fn not_printed() {
    let with = |change: &dyn Fn(&mut Card)| {
        let mut card = any(&mut Numbers(2), 3);
        change(&mut card);
        card.to_text().map_err(|no_card| match no_card {
            NoCard::Form(fault) => fault.line,
            NoCard::Window { .. } => panic!("{no_card}"),
        })
    };
    let long = 10_000_000_000;
    assert!(with(&|_| ()).is_ok());
    assert_eq!(with(&|card| card.width = long), Err(1));
    assert_eq!(with(&|card| card.channels = i64::MIN), Err(1));
    for column in 1..9 {
        assert_eq!(with(&|card| card.stack.table[COLUMNS + column] = -long), Err(3), "column {column}");
        assert!(with(&|card| card.stack.table[COLUMNS + column] = 1 - long).is_ok(), "column {column}");
    }
    for operator in [-1, 70, i64::MAX] {
        assert_eq!(with(&|card| card.stack.table[0] = operator), Err(2));
    }
    for count in [-1, 5, i64::MAX] {
        assert_eq!(with(&|card| card.stack.table[2 * COLUMNS + 9] = count), Err(4));
    }
    assert_eq!(with(&|card| card.stack.table.truncate(3 * COLUMNS - 1)), Err(0));
    assert_eq!(with(&|card| card.stack.table.truncate(3 * 10)), Err(0));
    assert_eq!(with(&|card| card.stack.args.push(0)), Err(0));
    assert_eq!(any(&mut Numbers(3), LAYERS + 1).to_text(), Err(CardFault { line: 18 }.into()));
}

/// A card has no window: what a layer's says is not lost in a print, even where it cuts nothing of this destination.
#[test]
fn windows_are_not_printed() {
    let card: Card = (TRAY.to_string() + LAYER + LAYER).parse().unwrap();
    assert!(card.to_layers().unwrap().iter().all(|layer| layer.window == Window::FULL));
    let full = Window::FULL;
    for window in [
        Window { left: 1, ..full },
        Window { top: 1, ..full },
        Window { width: 2, ..full },
        Window { height: 1, ..full },
        Window { width: 0, height: 0, ..full },
    ] {
        for layer in 0..2 {
            let mut layers = card.to_layers().unwrap();
            layers[layer].window = window;
            let cut = Card { stack: Stack::new(&layers), ..card.clone() };
            assert_eq!(cut.to_text(), Err(NoCard::Window { layer: layer as u64, window }));
            assert_eq!((cut.to_layers(), cut.check()), (Ok(layers), Ok(())));
        }
    }
    let said = NoCard::Window { layer: 2, window: Window { left: 3, ..Window::FULL } }.to_string();
    assert_eq!(said, "layer 2 has the window 3,0,2048,2048, and a card of edition 1 has no windows");
}

/// Numbers out of a job's ranges are read, and refused as a job refuses them: by `check` and by the job's call.
#[test]
fn a_card_whose_job_is_refused() {
    let (dst, samples) = ([0; 6], [0; 6]);
    let answer = |text: &str| {
        let card: Card = text.parse().unwrap();
        let (mut work0, mut work1) = ([0; 8], [0; 8]);
        let memory = Memory { work0: &mut work0, work1: &mut work1, mark: &mut [0, 5] };
        let called = job(&card.inputs(&dst, &samples), JobNumber(5), u64::MAX, memory).map(drop);
        assert_eq!(card.check(), called, "{text}");
        called
    };
    assert_eq!(answer(&(TRAY.to_string() + LAYER)), Ok(()));
    for (from, to, fault) in [
        ("over", "interpolate", Fault::Curve),
        ("place 0", "place 10", Fault::Placing),
        ("place 0", "place -1", Fault::Placing),
        ("-2", "-1000001", Fault::Placing),
        ("62", "64", Fault::Flags),
        ("source 0", "source -1", Fault::Source),
        ("source 0 2", "source 0 2049", Fault::Source),
        ("2 1 3)", "2 1 2)", Fault::Source),
    ] {
        let text = TRAY.to_string() + LAYER + &LAYER.replace(from, to);
        assert_eq!(answer(&text), Err(Error::Refused(Refusal { fault, layer: 1 })), "{to}");
    }
    for tray in ["(tray 1 2049 1 3)\n", "(tray 1 2 -1 3)\n", "(tray 1 2 1 9999999999)\n"] {
        let text = tray.to_string() + &LAYER.replace("62", "64");
        assert_eq!(answer(&text), Err(Error::Refused(Refusal { fault: Fault::Tray, layer: 0 })), "{tray}");
    }
    assert_eq!(answer(TRAY), Err(Error::Refused(Refusal { fault: Fault::Stack, layer: 0 })));
    // Where a source begins is left open.
    let text = TRAY.to_string() + &LAYER.replace("source 0", "source 9999999999");
    assert_eq!(text.parse::<Card>().unwrap().check(), Ok(()));
}

/// The crate's own layers, where it has a value for each number: a NaN keeps its bits.
#[test]
fn rows_as_layers() {
    let layers = |from: &str, to: &str| {
        let card: Card = (TRAY.to_string() + LAYER + &LAYER.replace(from, to)).parse().unwrap();
        card.to_layers()
    };
    for (from, to, fault) in [
        ("place 0", "place 10", Fault::Placing),
        ("place 0", "place -1", Fault::Placing),
        ("62", "64", Fault::Flags),
        ("62", "-1", Fault::Flags),
    ] {
        assert_eq!(layers(from, to), Err(Refusal { fault, layer: 1 }), "{to}");
    }
    assert_eq!(layers("over", "blur").unwrap()[1].operator, Operator::Blur);
    assert_eq!(layers("3 -2", "9999999999 -9999999999").unwrap()[1].offset, (9_999_999_999, -9_999_999_999));
    let nans = layers("3f000000", "7fa00001 ffffffff").unwrap();
    assert_eq!(nans[1].arguments.iter().map(|a| a.to_bits()).collect::<Vec<_>>(), [0x7fa0_0001, 0xffff_ffff]);
    assert_eq!(Stack::new(&nans).args[ARGUMENTS..], [0x7fa0_0001, 0xffff_ffff, 0, 0]);
    let mut short = Card { width: 1, height: 1, channels: 4, stack: Stack::new(&nans) };
    short.stack.args.pop();
    assert_eq!(short.to_layers(), Err(Refusal { fault: Fault::Stack, layer: 0 }));
    assert_eq!(short.check(), Err(Error::Refused(Refusal { fault: Fault::Stack, layer: 0 })));
    for number in 0..64 {
        assert_eq!(Flags::try_from(number).map(Flags::number), Ok(number));
    }
    for number in 0..10 {
        assert_eq!(Gravity::try_from(number).map(Gravity::number), Ok(number));
    }
    assert_eq!(Gravity::try_from(10), Err(Fault::Placing));
}
