//! What the four Rust files name and the repository of the port does not have: as much as the compiler asks
//! for. No composition, narrowing or name runs any of it.

use oxideav_core::{Error, PixelFormat, VideoFrame};

type Framed = Result<VideoFrame, Error>;

#[derive(Clone, Copy, Debug, PartialEq, Eq)]
pub struct VideoStreamParams {
    pub format: PixelFormat,
    pub width: u32,
    pub height: u32,
}

pub trait ImageFilter: Send {
    fn apply(&self, input: &VideoFrame, params: VideoStreamParams) -> Framed;
}

pub trait TwoInputImageFilter: Send {
    fn apply_two(&self, src: &VideoFrame, dst: &VideoFrame, params: VideoStreamParams) -> Framed;
}

pub trait PixelFilter: Send {
    fn accepted_formats(&self) -> &'static [PixelFormat];
    fn apply_pixels(&self, input: &VideoFrame, params: VideoStreamParams) -> Framed;
}

pub trait TwoInputPixelFilter: Send {
    fn accepted_formats(&self) -> &'static [PixelFormat];
    fn apply_two_pixels(&self, src: &VideoFrame, dst: &VideoFrame, params: VideoStreamParams) -> Framed;
}

impl<T: PixelFilter> ImageFilter for T {
    fn apply(&self, input: &VideoFrame, params: VideoStreamParams) -> Framed {
        self.apply_pixels(input, params)
    }
}

impl<T: TwoInputPixelFilter> TwoInputImageFilter for T {
    fn apply_two(&self, src: &VideoFrame, dst: &VideoFrame, params: VideoStreamParams) -> Framed {
        self.apply_two_pixels(src, dst, params)
    }
}

pub mod layout {
    use super::*;
    pub const PACKED_8BIT_DEEP: &[PixelFormat] = &[];
    pub fn validate_frame(_: &VideoFrame, _: VideoStreamParams, _: &str) -> Result<(), Error> {
        unimplemented!()
    }
}

pub mod measure {
    use super::*;
    /// `FloatImage` is deep.rs's, which stands above this: the caller says that it wants one.
    pub fn float_image_of<FloatImage>(_: &VideoFrame, _: VideoStreamParams) -> Result<FloatImage, Error> {
        unimplemented!()
    }
}

pub mod route {
    use super::*;
    pub fn narrow_words(_: &VideoFrame, _: usize, _: usize, _: usize) -> VideoFrame {
        unimplemented!()
    }
}

pub mod kernel {
    pub enum Alpha {
        Independent,
        Keep,
        Premultiplied,
    }
    // The Rust's own signature.
    #[allow(clippy::too_many_arguments)]
    pub fn convolve_separable(
        _: &[f32],
        _: usize,
        _: usize,
        _: usize,
        _: usize,
        _: &[f32],
        _: &[f32],
        _: Alpha,
    ) -> Vec<f32> {
        unimplemented!()
    }
}

pub mod extent {
    use super::*;
    pub struct Extent;
    impl Extent {
        pub fn new(_: u32, _: u32) -> Self {
            Extent
        }
        pub fn with_offset(self, _: i32, _: i32) -> Self {
            self
        }
        pub fn with_background(self, _: [u8; 4]) -> Self {
            self
        }
    }
    impl PixelFilter for Extent {
        fn accepted_formats(&self) -> &'static [PixelFormat] {
            unimplemented!()
        }
        fn apply_pixels(&self, _: &VideoFrame, _: VideoStreamParams) -> Framed {
            unimplemented!()
        }
    }
}
