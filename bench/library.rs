//! The library of a catalogue file, as far as terminals need it (docs/catalogue.md).

use crate::Failure;

/// A name, in the bytes of the file.
pub type Name = Box<[u8]>;

/// A terminal, and what it logs in with.
pub struct Login {
    pub terminal: Name,
    pub password: Name,
}

/// What terminals ask for.
#[derive(Default)]
pub struct Library {
    pub institution: Name,
    pub branches: Vec<Name>,
    pub terminals: Vec<Login>,
    pub patrons: Vec<Name>,
    pub titles: Vec<Name>,
    pub copies: Vec<Name>,
}

impl Library {
    /// Reads a catalogue file that holddesk accepts. What holddesk would refuse isn't all found.
    pub fn read(path: &str) -> Result<Library, Failure> {
        let text = std::fs::read(path).map_err(|error| format!("{path}: {error}"))?;
        let mut library = Library::default();
        for (number, line) in text.split(|byte| *byte == b'\n').enumerate() {
            let line = line.strip_suffix(b"\r").unwrap_or(line);
            if !line.is_empty() && !library.take(line) {
                return Err(format!("{path}: line {} isn't one of a catalogue", number + 1).into());
            }
        }
        let counts = [
            (library.branches.len(), "branch"),
            (library.terminals.len(), "terminal"),
            (library.patrons.len(), "patron"),
            (library.titles.len(), "title"),
            (library.copies.len(), "copy"),
        ];
        match counts.iter().find(|(count, _)| *count == 0) {
            Some((_, kind)) => Err(format!("{path}: there is no {kind} in it").into()),
            None => Ok(library),
        }
    }

    /// Keeps what a line says, where it is one of a catalogue.
    fn take(&mut self, line: &[u8]) -> bool {
        let values: Vec<&[u8]> = line.split(|byte| *byte == b'|').collect();
        match values[..] {
            [b"H", _, institution, _, _] => self.institution = institution.into(),
            [b"B", name] => self.branches.push(name.into()),
            [b"S", name, password, _] => self.terminals.push(Login {
                terminal: name.into(),
                password: password.into(),
            }),
            [b"P", name, _] => self.patrons.push(name.into()),
            [b"T", name, _, _] | [b"T", name, _, _, _] => self.titles.push(name.into()),
            [b"C", name, _, _] => self.copies.push(name.into()),
            _ => return false,
        }
        true
    }

    /// Keeps the terminals of these names alone, in this order.
    pub fn keep_terminals(&mut self, names: &[&str]) -> Result<(), Failure> {
        let mut kept = Vec::new();
        for name in names {
            let place = self.terminals.iter().position(|login| *login.terminal == *name.as_bytes());
            let place = place.ok_or(format!("there is no terminal {name}"))?;
            kept.push(self.terminals.swap_remove(place));
        }
        self.terminals = kept;
        Ok(())
    }
}
