//! The crate's table of operators is true of the library: its names and aliases, which operators are carried, and what the
//! arguments do that it documents.

use tray::{compose, from_name, words, words_mut};
use tray::{Error, Fault, Inputs, Layer, Operator, Source, Stack, ARGUMENTS};

const SIDE: usize = 32;

/// Numbers that look random and are the same in each run.
struct Numbers(u64);

impl Numbers {
    /// The next value from `low` to `high`.
    fn between(&mut self, low: f32, high: f32) -> f32 {
        self.0 = self.0.wrapping_mul(6364136223846793005).wrapping_add(1442695040888963407);
        low + (high - low) * ((self.0 >> 40) as f32 / (1 << 24) as f32)
    }
}

/// A destination and a source. In every third pixel the source lies close to the destination, in some at it, so that small
/// differences count.
struct Pair {
    dst: Vec<f32>,
    src: Vec<f32>,
}

impl Pair {
    fn new() -> Self {
        let mut numbers = Numbers(1);
        let dst: Vec<f32> = (0..4 * SIDE * SIDE).map(|_| numbers.between(0.0, 1.0)).collect();
        let near = |pixel: usize| [0.0, 0.001, 0.01, 0.1][pixel / 3 % 4];
        let src = dst.iter().enumerate().map(|(i, d)| match i / 4 {
            pixel if pixel % 3 == 0 => d + numbers.between(-near(pixel), near(pixel)),
            _ => numbers.between(0.0, 1.0),
        });
        Pair { src: src.collect(), dst }
    }

    fn composed(&self, operator: Operator, arguments: &[f32]) -> Result<Vec<u32>, Error<Fault>> {
        let side = SIDE as i64;
        let source = Source { first: 0, width: side, height: side, channels: 4 };
        let layer = Layer { arguments: arguments.to_vec(), ..Layer::new(operator, source) };
        let Stack { table, args } = &Stack::new(&[layer]);
        let (dst, samples) = (words(&self.dst), words(&self.src));
        let inputs = Inputs { width: side, height: side, channels: 4, dst, layers: 1, table, args, samples };
        let mut out = vec![0.0; 4 * SIDE * SIDE];
        compose(&inputs, words_mut(&mut out))?;
        Ok(words(&out).to_vec())
    }
}

fn carried() -> impl Iterator<Item = Operator> {
    Operator::ALL.into_iter().filter(|operator| operator.carried())
}

/// The documented defaults, after the arguments that are given.
fn completed(operator: Operator, given: &[f32]) -> Vec<f32> {
    let mut all = given.to_vec();
    for argument in &operator.arguments()[given.len()..] {
        let first = all.first().copied().unwrap_or(f32::NAN);
        all.push(argument.default.value(first));
    }
    all
}

#[test]
fn names_and_numbers() {
    let mut aliases = 0;
    for (number, operator) in Operator::ALL.into_iter().enumerate() {
        assert_eq!(operator.number(), number as u64);
        assert_eq!(Operator::try_from(number as u64), Ok(operator));
        assert_eq!(operator.name(), format!("{operator:?}").to_lowercase());
        assert_eq!(operator.to_string().parse(), Ok(operator));
        let names = operator.aliases().iter().copied().chain([operator.name()]);
        for name in names {
            let mut library = 99;
            assert_eq!((tray::raw::from_name(name.as_bytes(), &mut library), library), (0, number as u64), "{name}");
            assert_eq!(from_name(name.as_bytes()), Ok(operator));
        }
        aliases += operator.aliases().len();
    }
    assert_eq!((Operator::ALL.len(), aliases), (70, 13));
    for number in [70, 256, u64::MAX] {
        assert_eq!(Operator::try_from(number), Err(Fault::Operator));
    }
    assert_eq!("shiny".parse::<Operator>(), Err(Fault::Operator));
}

#[test]
fn carried_or_refused() {
    let pair = Pair::new();
    for operator in Operator::ALL {
        let answer = pair.composed(operator, &[]).map(|_| ());
        let wanted = if operator.carried() { Ok(()) } else { Err(Error::Refused(Fault::Curve)) };
        assert_eq!(answer, wanted, "{operator}");
    }
    assert_eq!(carried().count(), 68);
}

/// However many arguments are given, those that are not count as the documented defaults.
#[test]
fn defaults() {
    let (pair, mut numbers) = (Pair::new(), Numbers(2));
    for operator in carried().filter(|operator| !operator.arguments().is_empty()) {
        let count = operator.arguments().len();
        for round in 0..200 {
            for given in 0..=count {
                let given: Vec<f32> = (0..given).map(|_| numbers.between(-0.5, [1.5, 150.0][round % 2])).collect();
                let all = completed(operator, &given);
                assert_eq!(
                    pair.composed(operator, &given),
                    pair.composed(operator, &all),
                    "{operator} {given:?} {all:?}"
                );
            }
        }
    }
}

/// An argument that is not finite counts as missing; Mathematics takes it as it is.
#[test]
fn not_finite() {
    let pair = Pair::new();
    for operator in carried() {
        for place in 0..operator.arguments().len() {
            let mut all = completed(operator, &[]);
            let usual = pair.composed(operator, &all);
            for value in [f32::NAN, f32::INFINITY, f32::NEG_INFINITY] {
                all[place] = value;
                let same = pair.composed(operator, &all) == usual;
                assert_eq!(same, operator != Operator::Mathematics, "{operator}, argument {place} is {value}");
            }
        }
    }
}

/// A documented argument makes a difference, also a small one; those after the documented ones make none.
#[test]
fn what_is_read() {
    let (pair, mut numbers) = (Pair::new(), Numbers(3));
    for operator in carried() {
        let all = completed(operator, &[]);
        let usual = pair.composed(operator, &all);
        for place in 0..all.len() {
            let mut other = all.clone();
            other[place] += 0.02;
            assert_ne!(pair.composed(operator, &other), usual, "{operator} does not read argument {place}");
        }
        for _ in 0..10 {
            let mut more = all.clone();
            more.resize_with(ARGUMENTS, || numbers.between(-2.0, 200.0));
            assert_eq!(pair.composed(operator, &more), usual, "{operator} reads more than {} arguments", all.len());
        }
    }
}
