//! Sets of settings.

use std::fmt::{Display, Formatter, Result};

/// A set of the settings 1 to 6.
#[derive(Clone, Copy, Debug, Default, PartialEq, Eq, Hash)]
pub struct Settings(u8);

impl Settings {
    /// Of the lowest six bits; bit v−1 stands for setting v.
    pub(crate) fn from_bits(bits: u8) -> Settings {
        Settings(bits & 0b11_1111)
    }

    /// Bit v−1 stands for setting v.
    #[must_use]
    pub fn bits(self) -> u8 {
        self.0
    }

    /// Whether the setting is in the set; no number but 1 to 6 ever is.
    #[must_use]
    pub fn contains(self, setting: i32) -> bool {
        self.iter().any(|inside| inside == setting)
    }

    /// The settings in rising order.
    pub fn iter(self) -> impl Iterator<Item = i32> {
        (1..=6).filter(move |v| self.0 >> (v - 1) & 1 == 1)
    }

    /// Whether there is no setting in the set.
    #[must_use]
    pub fn is_empty(self) -> bool {
        self.0 == 0
    }
}

/// Such as `s1, s3`, and nothing for the empty set.
impl Display for Settings {
    fn fmt(&self, f: &mut Formatter<'_>) -> Result {
        for (at, setting) in self.iter().enumerate() {
            let comma = if at == 0 { "" } else { ", " };
            write!(f, "{comma}s{setting}")?;
        }
        Ok(())
    }
}

#[cfg(test)]
mod tests {
    use super::Settings;

    #[test]
    fn bit_v_less_1_stands_for_setting_v() {
        let set = Settings::from_bits(0b1110_0110);
        assert_eq!(set.bits(), 0b10_0110);
        assert_eq!(set.iter().collect::<Vec<_>>(), [2, 3, 6]);
        let inside: Vec<i32> = (-40..40).filter(|&v| set.contains(v)).collect();
        assert_eq!(inside, [2, 3, 6]);
        assert!(!set.contains(i32::MIN) && !set.contains(i32::MAX));
        assert_eq!(set.to_string(), "s2, s3, s6");
        assert!(!set.is_empty() && Settings::default().is_empty());
        assert_eq!(Settings::default().to_string(), "");
    }
}
