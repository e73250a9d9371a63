//! Stands in for `image::metadata`: the orientations, which only the other modes use.

/// The orientations of an EXIF entry.
#[derive(Debug, Clone, Copy, PartialEq, Eq)]
pub enum Orientation {
    NoTransforms,
    Rotate90,
    Rotate180,
    Rotate270,
    FlipHorizontal,
    FlipVertical,
    Rotate90FlipH,
    Rotate270FlipH,
}
