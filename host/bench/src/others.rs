//! Other libraries' composition on the same pictures, as what one would pick otherwise: in place, on one thread, where
//! build.rs found them. Only their time is compared: they define some operators otherwise.

use crate::inputs::Pair;
use crate::turns::Side;
use std::ffi::c_void;

/// The four calls of pixman.c and of magick.c.
struct Calls {
    operator: unsafe extern "C" fn(i32) -> i32,
    image: unsafe extern "C" fn(i32, *mut f32) -> *mut c_void,
    free: unsafe extern "C" fn(*mut c_void),
    compose: unsafe extern "C" fn(i32, *mut c_void, *mut c_void, i32) -> i32,
}

pub struct Library {
    pub name: &'static str,
    pub version: &'static str,
    /// Debian's package.
    pub package: &'static str,
    /// Whether its colours are multiplied by alpha.
    multiplied: bool,
    calls: Option<Calls>,
}

impl Library {
    pub fn is_there(&self) -> bool {
        self.calls.is_some()
    }
}

/// The calls of a library that build.rs found under this name.
macro_rules! calls {
    ($found:ident, $operator:ident, $image:ident, $free:ident, $compose:ident) => {{
        #[cfg($found)]
        {
            unsafe extern "C" {
                fn $operator(number: i32) -> i32;
                fn $image(side: i32, samples: *mut f32) -> *mut c_void;
                fn $free(image: *mut c_void);
                fn $compose(operator: i32, src: *mut c_void, dst: *mut c_void, side: i32) -> i32;
            }
            Some(Calls { operator: $operator, image: $image, free: $free, compose: $compose })
        }
        #[cfg(not($found))]
        None
    }};
}

pub const COUNT: usize = 2;

pub const LIBRARIES: [Library; COUNT] = [
    Library {
        name: "pixman",
        version: env!("PIXMAN_VERSION"),
        package: "libpixman-1-dev",
        multiplied: true,
        calls: calls!(pixman, pixman_operator, pixman_image, pixman_free, pixman_compose),
    },
    Library {
        name: "ImageMagick",
        version: env!("MAGICK_VERSION"),
        package: "libmagickcore-6.q16hdri-dev",
        multiplied: false,
        calls: calls!(magick, magick_operator, magick_image, magick_free, magick_compose),
    },
];

/// A source and a destination, and the operator between them.
pub struct Composition {
    calls: Calls,
    operator: i32,
    side: i32,
    images: [*mut c_void; 2],
    /// pixman's images point into them.
    samples: [Vec<f32>; 2],
    /// The destination as it was, for the next turn.
    dst: Vec<f32>,
}

fn samples(words: &[u32], multiplied: bool) -> Vec<f32> {
    let mut samples: Vec<f32> = words.iter().map(|w| f32::from_bits(*w)).collect();
    if multiplied {
        for pixel in samples.chunks_exact_mut(4) {
            let alpha = pixel[3];
            pixel[..3].iter_mut().for_each(|v| *v *= alpha);
        }
    }
    samples
}

impl Composition {
    /// None where the library is not there or has not the operator.
    pub fn new(library: Library, pair: &Pair, operator: usize) -> Option<Self> {
        let calls = library.calls?;
        let operator = unsafe { (calls.operator)(operator as i32) };
        if operator < 0 {
            return None;
        }
        let side = pair.side as i32;
        let mut samples = [&pair.src, &pair.dst].map(|words| samples(words, library.multiplied));
        let images = samples.each_mut().map(|list| unsafe { (calls.image)(side, list.as_mut_ptr()) });
        assert!(images.iter().all(|image| !image.is_null()), "{} makes no image", library.name);
        let dst = samples[1].clone();
        Some(Composition { calls, operator, side, images, samples, dst })
    }
}

impl Side for Composition {
    /// A composition in place leaves a result, which the next one would begin with: after many, some operators have
    /// numbers so small that they take longer. Each turn begins with the same destination.
    fn prepare(&mut self) {
        self.samples[1].copy_from_slice(&self.dst);
        unsafe { (self.calls.free)(self.images[1]) };
        self.images[1] = unsafe { (self.calls.image)(self.side, self.samples[1].as_mut_ptr()) };
        assert!(!self.images[1].is_null(), "an image is not made");
    }

    fn run(&mut self) {
        let done = unsafe { (self.calls.compose)(self.operator, self.images[0], self.images[1], self.side) };
        assert!(done != 0, "a composition failed");
    }
}

impl Drop for Composition {
    fn drop(&mut self) {
        self.images.iter().for_each(|image| unsafe { (self.calls.free)(*image) });
    }
}
