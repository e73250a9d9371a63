//! Stands in for the crate `image`: the 8-bit RGB and RGBA containers, and no conversion.

use std::ops::{Deref, DerefMut};

pub mod metadata;

use metadata::Orientation;

/// Pixels of `CHANNELS` bytes, row by row.
#[derive(Debug, Clone, PartialEq, Eq)]
pub struct Samples<const CHANNELS: usize> {
    width: u32,
    height: u32,
    bytes: Vec<u8>,
}

/// Red, green, blue.
pub type RgbImage = Samples<3>;
/// Red, green, blue, alpha.
pub type RgbaImage = Samples<4>;

impl<const CHANNELS: usize> Samples<CHANNELS> {
    /// The container of `bytes`, where their number is right.
    pub fn from_raw(width: u32, height: u32, bytes: Vec<u8>) -> Option<Self> {
        let needed = width as usize * height as usize * CHANNELS;
        (bytes.len() == needed).then_some(Samples { width, height, bytes })
    }

    /// The bytes alone.
    pub fn into_raw(self) -> Vec<u8> {
        self.bytes
    }
}

impl<const CHANNELS: usize> Deref for Samples<CHANNELS> {
    type Target = [u8];

    fn deref(&self) -> &[u8] {
        &self.bytes
    }
}

impl<const CHANNELS: usize> DerefMut for Samples<CHANNELS> {
    fn deref_mut(&mut self) -> &mut [u8] {
        &mut self.bytes
    }
}

/// A picture of either kind. The real one has further kinds.
#[derive(Debug, Clone, PartialEq, Eq)]
#[non_exhaustive]
pub enum DynamicImage {
    /// Three channels.
    ImageRgb8(RgbImage),
    /// Four channels.
    ImageRgba8(RgbaImage),
}

/// What the Rust asks of a picture's colours.
pub struct ColorType {
    alpha: bool,
}

impl ColorType {
    /// Whether there is a fourth channel.
    pub fn has_alpha(&self) -> bool {
        self.alpha
    }
}

impl DynamicImage {
    /// Pixels in a row.
    pub fn width(&self) -> u32 {
        match self {
            DynamicImage::ImageRgb8(samples) => samples.width,
            DynamicImage::ImageRgba8(samples) => samples.width,
        }
    }

    /// Rows.
    pub fn height(&self) -> u32 {
        match self {
            DynamicImage::ImageRgb8(samples) => samples.height,
            DynamicImage::ImageRgba8(samples) => samples.height,
        }
    }

    /// The kind of colours.
    pub fn color(&self) -> ColorType {
        ColorType { alpha: matches!(self, DynamicImage::ImageRgba8(_)) }
    }

    /// The samples of a three-channel picture.
    pub fn into_rgb8(self) -> RgbImage {
        match self {
            DynamicImage::ImageRgb8(samples) => samples,
            DynamicImage::ImageRgba8(_) => unimplemented!("no conversion is built here"),
        }
    }

    /// The samples of a four-channel picture.
    pub fn into_rgba8(self) -> RgbaImage {
        match self {
            DynamicImage::ImageRgba8(samples) => samples,
            DynamicImage::ImageRgb8(_) => unimplemented!("no conversion is built here"),
        }
    }

    /// A three-channel copy.
    pub fn to_rgb8(&self) -> RgbImage {
        self.clone().into_rgb8()
    }

    /// The resilient mode does not turn pictures.
    pub fn rotate90(&self) -> DynamicImage {
        unimplemented!("only the resilient mode is built here")
    }

    /// The resilient mode does not turn pictures.
    pub fn rotate270(&self) -> DynamicImage {
        unimplemented!("only the resilient mode is built here")
    }

    /// The resilient mode does not turn pictures.
    pub fn apply_orientation(&mut self, _orientation: Orientation) {
        unimplemented!("only the resilient mode is built here")
    }
}
