//! A stand-in for the crate oxideav-core: the names that composite.rs, deep.rs, gravity_translate.rs and
//! exec.rs take from it, as far as the compiler asks for them.

#[derive(Debug, Clone)]
pub enum Error {
    InvalidData(String),
    Unsupported(String),
}

impl Error {
    pub fn invalid(text: impl Into<String>) -> Self {
        Error::InvalidData(text.into())
    }
    pub fn unsupported(text: impl Into<String>) -> Self {
        Error::Unsupported(text.into())
    }
}

#[derive(Debug, Clone, Copy, PartialEq, Eq)]
pub enum PixelFormat {
    Gray8,
    Rgb24,
    Rgba,
    Gray16Le,
    Rgb48Le,
    Rgba64Le,
    GrayF32Le,
    RgbF32Le,
    RgbaF32Le,
}

#[derive(Debug, Clone)]
pub struct VideoPlane {
    pub stride: usize,
    pub data: Vec<u8>,
}

#[derive(Debug, Clone)]
pub struct VideoFrame {
    pub pts: Option<i64>,
    pub planes: Vec<VideoPlane>,
}

/// The thread budget of exec.rs. The oracle grants none, so every row runs in turn.
#[derive(Debug, Clone)]
pub struct ExecutionContext {
    pub threads: usize,
}

impl ExecutionContext {
    pub fn with_threads(threads: usize) -> Self {
        Self { threads }
    }
    pub fn effective_workers(&self, rows: usize) -> usize {
        self.threads.min(rows).max(1)
    }
}
