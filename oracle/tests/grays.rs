//! Document 02, A.1: the gray of a pixel, asked of the compiled Rust with its weights and of the restatement.

use oracle::model::Reference;
use oracle::request::{Side, words};
use oracle::restated::{Reading, Restated};

const RESTATED: Restated = Restated { reading: Reading::RIGHT };
const SIDES: [&dyn Side; 2] = [&Reference, &RESTATED];

/// The grays of some colours, as words and as bytes.
fn grays(side: &dyn Side, colours: &[[f32; 3]]) -> (Vec<u32>, Vec<u8>) {
    let input: Vec<u32> = colours.iter().flat_map(|[r, g, b]| words(&[*r, *g, *b, 0.5])).collect();
    let (mut out, mut bytes) = (vec![0; colours.len()], vec![0; colours.len()]);
    assert_eq!(side.narrow(1, &input, &mut out), 0);
    assert_eq!(side.narrow_bytes(1, &input, &mut bytes), 0);
    (out, bytes)
}

#[test]
fn weights() {
    for side in SIDES {
        let (out, bytes) = grays(side, &[[1.0, 0.0, 0.0], [0.0, 1.0, 0.0], [0.0, 0.0, 1.0]]);
        assert_eq!(out, [0x3e59_c27f, 0x3f37_1498, 0x3d93_d641]);
        assert_eq!(bytes, [54, 182, 18]);
    }
}

/// Three equal colours are weighed as any others are: of the 256 bytes 59 have a gray with other bits, and none another byte.
#[test]
fn equal_colours() {
    let values: Vec<f32> = (0..=255).map(|code| code as f32 / 255.0).collect();
    let colours: Vec<[f32; 3]> = values.iter().map(|v| [*v; 3]).collect();
    for side in SIDES {
        let (out, bytes) = grays(side, &colours);
        assert_eq!(out.iter().zip(&values).filter(|(word, v)| **word != v.to_bits()).count(), 59);
        assert!(bytes.into_iter().eq(0..=255));
    }
}
