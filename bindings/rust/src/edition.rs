//! Editions of the language.
use std::error::Error;
use std::fmt;
use std::str::FromStr;

/// An edition of Rust. Editions are ordered by their years.
///
/// The Rust crate takes this type from a crate of its own for editions; here it is this package's.
#[allow(missing_docs)]
#[derive(Clone, Copy, PartialEq, Eq, PartialOrd, Ord, Hash, Debug)]
#[repr(u8)]
pub enum Edition {
    Edition2015 = 0,
    Edition2018 = 1,
    Edition2021 = 2,
    Edition2024 = 3,
}

impl Edition {
    /// The edition of a package that names none.
    pub const DEFAULT: Edition = Edition::Edition2015;
    /// The latest edition.
    pub const LATEST: Edition = Edition::Edition2024;
    /// The edition that new packages are made with.
    pub const CURRENT: Edition = Edition::Edition2024;
    /// The same as [`Edition::CURRENT`], where the edition of the text should stand.
    pub const CURRENT_FIXME: Edition = Edition::Edition2024;

    /// The edition with this number: 0 for 2015, up to 3 for 2024.
    ///
    /// # Panics
    ///
    /// For another number.
    ///
    /// ```
    /// use ra_ap_parser::Edition;
    ///
    /// assert_eq!(Edition::from_u32(3), Edition::Edition2024);
    /// ```
    #[must_use]
    pub fn from_u32(number: u32) -> Edition {
        Edition::iter().nth(number as usize).expect("the number is an edition's")
    }

    /// Whether this is the edition 2024 or a later one.
    ///
    /// ```
    /// use ra_ap_parser::Edition;
    ///
    /// assert!(Edition::Edition2024.at_least_2024());
    /// assert!(!Edition::Edition2021.at_least_2024());
    /// ```
    #[must_use]
    pub fn at_least_2024(self) -> bool {
        self >= Edition::Edition2024
    }

    /// Whether this is the edition 2021 or a later one.
    ///
    /// ```
    /// use ra_ap_parser::Edition;
    ///
    /// assert!(Edition::Edition2021.at_least_2021());
    /// assert!(!Edition::Edition2018.at_least_2021());
    /// ```
    #[must_use]
    pub fn at_least_2021(self) -> bool {
        self >= Edition::Edition2021
    }

    /// Whether this is the edition 2018 or a later one.
    ///
    /// ```
    /// use ra_ap_parser::Edition;
    ///
    /// assert!(Edition::Edition2018.at_least_2018());
    /// assert!(!Edition::Edition2015.at_least_2018());
    /// ```
    #[must_use]
    pub fn at_least_2018(self) -> bool {
        self >= Edition::Edition2018
    }

    /// The year.
    ///
    /// ```
    /// use ra_ap_parser::Edition;
    ///
    /// assert_eq!(Edition::Edition2021.number(), 2021);
    /// ```
    #[must_use]
    pub fn number(&self) -> usize {
        match self {
            Edition::Edition2015 => 2015,
            Edition::Edition2018 => 2018,
            Edition::Edition2021 => 2021,
            Edition::Edition2024 => 2024,
        }
    }

    /// All editions, by their years.
    ///
    /// ```
    /// use ra_ap_parser::Edition;
    ///
    /// let years: Vec<usize> = Edition::iter().map(|edition| edition.number()).collect();
    /// assert_eq!(years, [2015, 2018, 2021, 2024]);
    /// ```
    pub fn iter() -> impl Iterator<Item = Edition> {
        [Edition::Edition2015, Edition::Edition2018, Edition::Edition2021, Edition::Edition2024].into_iter()
    }

    /// The year, as the calls of the library take it.
    pub(crate) fn year(self) -> u32 {
        self.number() as u32
    }
}

/// The text is the year of no edition.
#[derive(Debug)]
pub struct ParseEditionError {
    invalid_input: String,
}

impl Error for ParseEditionError {}

impl fmt::Display for ParseEditionError {
    fn fmt(&self, f: &mut fmt::Formatter<'_>) -> fmt::Result {
        write!(f, "invalid edition: {:?}", self.invalid_input)
    }
}

/// Reads an edition from the four digits of its year, and nothing else.
///
/// ```
/// use ra_ap_parser::Edition;
///
/// assert_eq!("2021".parse::<Edition>().unwrap(), Edition::Edition2021);
/// assert!("2022".parse::<Edition>().is_err());
/// ```
impl FromStr for Edition {
    type Err = ParseEditionError;

    fn from_str(text: &str) -> Result<Edition, ParseEditionError> {
        let found = Edition::iter().find(|edition| edition.to_string() == text);
        found.ok_or_else(|| ParseEditionError { invalid_input: text.to_owned() })
    }
}

/// Prints the year.
///
/// ```
/// assert_eq!(ra_ap_parser::Edition::Edition2018.to_string(), "2018");
/// ```
impl fmt::Display for Edition {
    fn fmt(&self, f: &mut fmt::Formatter<'_>) -> fmt::Result {
        f.write_str(match self {
            Edition::Edition2015 => "2015",
            Edition::Edition2018 => "2018",
            Edition::Edition2021 => "2021",
            Edition::Edition2024 => "2024",
        })
    }
}
