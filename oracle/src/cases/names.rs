//! The 83 names as they stand and in other spellings, and near misses.

use super::book::Book;
use crate::lines::Request;
use crate::reference;

const NEAR: &[&[u8]] = &[
    b"",
    b"-",
    b"_",
    b" ",
    b"-_ - _",
    b"Soft-Light",
    b"SRC over",
    b"minus",
    b"s-o_f t--l__i  g-h_t ",
    b"-over",
    b"over-",
    b"over\t",
    b"\tover",
    b"over\n",
    b"over\r\n",
    b"over\0",
    b"\0over",
    b"ov\0er",
    b"over\0\0\0",
    b"ove",
    b"overr",
    b"oover",
    b"o ver",
    b"over,",
    b"ov.er",
    b"soft+light",
    b"soft/light",
    b"i",
    b"inn",
    b"dst over",
    b"dst-in-",
    b"src-over",
    b"src",
    b"srcdst",
    b"source",
    b"softlight2",
    b"softligh",
    b"hardlight",
    b"lineardodg",
    b"linear_dodge",
    b"LINEAR DODGE",
    b"color dodge",
    b"colour dodge",
    b"colordodge",
    b"blur",
    b"Blur",
    b"interpolate",
    b"INTERPOLATE",
    b"undefined",
    b"no",
    b"nonee",
    b"copy alpha",
    b"copy-opacity",
    b"copyopacities",
    b"copyblack",
    b"copyk",
    b"modulus_add",
    b"modulate",
    b"modulates",
    b"plu\xc5\xbf",       // plus with a long s
    b"dar\xe2\x84\xaaen", // darken with a Kelvin sign
    b"\xef\xbb\xbfover",  // a byte order mark
    b"over\xc2\xa0",      // a no-break space
    b"over\xff",          // no UTF-8
    b"\xffover",          // no UTF-8
    b"ov\x80er",          // a byte that only continues
    b"over\xc3",          // a character cut short
    b"\xc1\xafver",       // an overlong o
    b"\xed\xa0\x80over",  // half a surrogate pair
    b"\xf4\x90\x80\x80",  // past the last character
    b"\xff",
    b"\xc3\xa9",                 // e with an accent
    b"\xcf\x8c\xcf\x87\xce\xb9", // letters of another script
    b"\xe2\x80\x90over",         // a hyphen that is not '-'
    b"\xc2\xadover",             // a soft hyphen
    b"OVER",
    b"oVeR",
    b"over@",
    b"[ver",
    b"ove\x52",
    b"ove2",
    b"\x4fver",
    b"\x2fver",
    b"\x0fver",
    b"0ver",
    b"0",
    b"13",
    b"\x7fover",
    b"x/or",
    b"in out",
    b"inin",
    b"over over",
    b"xor xor",
    b"difference-",
    b"differences",
    b"screen_screen",
    b"@dd",
    b"`dd",
    b"minus{",
    b"rin",
    b"nout",
    b"dsubtract",
    b"subtract\0",
    b"subtract\0\0\0\0\0\0\0\0",
    b"softlighs",
    b"modulussubtracs",
    b"lightenintensite",
    b"aaaaaaaaaaaaaaaaaaaaaaaaaaaaaaaaaaaaaaaaaaaaaaaaaaaaaaaaaaaaaaaaaaaaaaaaaaaaaaaaaaaaaaaaaaaaaaaaaa",
    b"o----------------------------------------------------------------v_____________________er",
];

pub fn put(book: &mut Book) {
    let known: Vec<&str> = reference::names().collect();
    assert_eq!(known.len(), 83);
    book.note("names: the 70 names and 13 aliases");
    for name in &known {
        book.put(Request::Name(name.as_bytes().to_vec()));
    }
    book.note("names: each one spelt otherwise, then a byte short, then a byte long");
    for (i, name) in known.iter().enumerate() {
        let bytes = name.as_bytes();
        let mut spelt = bytes.to_ascii_uppercase();
        spelt.insert(i % spelt.len(), b"-_ "[i % 3]);
        book.put(Request::Name(spelt));
        book.put(Request::Name(bytes[..bytes.len() - 1].to_vec()));
        book.put(Request::Name([bytes, b"s"].concat()));
    }
    book.note("names: each one with the next, and with its first letter");
    for pair in known.windows(2) {
        let (name, first) = (pair[0], &pair[1][..1]);
        book.put(Request::Name(pair.concat().into()));
        // A name with an 's' stands above.
        if first != "s" {
            book.put(Request::Name([name, first].concat().into()));
        }
    }
    book.note("names: near misses, and bytes that are no name");
    for name in NEAR {
        book.put(Request::Name(name.to_vec()));
    }
    // Every byte in the place of one letter, and after a name: only case and the three dropped ones pass.
    book.note("names: 'xor' with each byte in the middle, and after it");
    for byte in 0..=255u8 {
        book.put(Request::Name(vec![b'x', byte, b'r']));
        book.put(Request::Name(vec![b'x', b'o', b'r', byte]));
    }
}
