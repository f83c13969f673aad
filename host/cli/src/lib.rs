//! What the command and the demonstration's drawing share: pictures as files, and how a command speaks and ends.

pub mod exit;
pub mod pfm;
pub mod picture;
pub mod picture_file;
pub mod png_file;
pub mod say;
pub mod tiff;
