//! Counting what was compared, and showing the first inputs on which the two sides differ.

use std::fmt::Write;

/// The first differences of a stage, which are enough to start looking.
const SHOWN: u64 = 5;

#[derive(Default)]
pub struct Tally {
    pub compared: u64,
    pub different: u64,
    /// Functions of the stage that the archive has not got.
    pub missing: Vec<&'static str>,
    report: String,
}

impl Tally {
    /// Counts a comparison; `describe` says input and both answers.
    pub fn count(&mut self, equal: bool, describe: impl FnOnce() -> String) {
        self.compared += 1;
        if equal {
            return;
        }
        self.different += 1;
        if self.different <= SHOWN {
            writeln!(self.report, "    {}", describe()).expect("a string takes any text");
        }
    }

    /// Adds the counts of a stage. A function that is missing, and a stage that compared nothing, count as different.
    pub fn add(&mut self, stage: &Tally) {
        self.compared += stage.compared;
        self.different += stage.different + stage.missing.len() as u64;
        self.different += u64::from(stage.compared == 0);
    }

    /// The stage's line, and the first differences below it.
    pub fn print(&self, name: &str) {
        print!("{name}: {} compared, {} different", self.compared, self.different);
        if !self.missing.is_empty() {
            print!("; missing: {}", self.missing.join(", "));
        }
        print!("\n{}", self.report);
    }
}

/// A value that both sides give, equal where its bits are; a NaN counts as a NaN.
pub trait Value: Copy {
    fn same(self, other: Self) -> bool;
    fn show(self) -> String;
}

macro_rules! floats {
    ($($float:ty, $digits:literal;)*) => {$(
        impl Value for $float {
            fn same(self, other: Self) -> bool {
                self.to_bits() == other.to_bits() || (self.is_nan() && other.is_nan())
            }

            fn show(self) -> String {
                format!("{:0digits$x}", self.to_bits(), digits = $digits)
            }
        }
    )*};
}

floats! { f32, 8; f64, 16; }

macro_rules! exact {
    ($($type:ty, $form:literal;)*) => {$(
        impl Value for $type {
            fn same(self, other: Self) -> bool {
                self == other
            }

            fn show(self) -> String {
                format!($form, self)
            }
        }
    )*};
}

exact! { u8, "{}"; i64, "{}"; bool, "{}"; u32, "{:08x}"; }
