//! Configurations of groups.

use crate::calls;
use crate::faults::OutOfMemory;
use std::error::Error;
use std::fmt;

const NOT_TOLD: &str = "a configuration as bully.h has it";

/// A group, as its configuration has it.
#[derive(Clone, Debug, PartialEq, Eq, Hash)]
pub struct Configuration {
    /// The header of a log of the group, without its line end.
    pub header: String,
    /// The names of the nodes, in the order of their numbers.
    pub names: Vec<String>,
}

/// Why a text is no configuration.
#[derive(Clone, Debug, PartialEq, Eq, Hash)]
pub enum ConfigurationError {
    /// Its first fault, as `docs/FORMATS.md` names it.
    Fault(String),
    /// An allocation failed.
    OutOfMemory(OutOfMemory),
}

impl Configuration {
    /// Reads a configuration, a TOML document as `docs/FORMATS.md` has it.
    ///
    /// ```
    /// use bully::{Configuration, ConfigurationError};
    ///
    /// let text = "nodes = 2\npartitions = 3\nevents = 9\nturns = 9\nnames = ['a', 'b c']\n";
    /// let group = Configuration::read(text.as_bytes())?;
    /// assert_eq!((group.header.as_str(), group.names[1].as_str()), ("bully,1,2,3", "b c"));
    ///
    /// let fault = Configuration::read(b"nodes = 2").unwrap_err();
    /// assert_eq!(fault.to_string(), "config: Missing partitions");
    /// # Ok::<(), ConfigurationError>(())
    /// ```
    pub fn read(text: &[u8]) -> Result<Configuration, ConfigurationError> {
        let told = calls::configuration(text)
            .map_err(|status| ConfigurationError::OutOfMemory(OutOfMemory::told(status)))?
            .map_err(ConfigurationError::Fault)?;
        let told = String::from_utf8(told).expect(NOT_TOLD);
        let (header, mut lines) = told.split_once('\n').expect(NOT_TOLD);
        let mut names = Vec::new();
        while let Some((length, behind)) = lines.split_once(':') {
            let (name, rest) = behind.split_at(length.parse().expect(NOT_TOLD));
            names.push(name.to_string());
            lines = &rest[1..];
        }
        Ok(Configuration {
            header: header.to_string(),
            names,
        })
    }
}

impl fmt::Display for ConfigurationError {
    fn fmt(&self, formatter: &mut fmt::Formatter<'_>) -> fmt::Result {
        match self {
            ConfigurationError::Fault(fault) => write!(formatter, "config: {fault}"),
            ConfigurationError::OutOfMemory(fault) => fault.fmt(formatter),
        }
    }
}

impl Error for ConfigurationError {}
