//! Where in a body a refusal stands.

use std::fmt;

/// Where in a body a refusal stands: an offset from the start of the whole body, and the numbers of the fields that enclose it.
///
/// The offset of a varint that is short, overflows or is not minimal is that of its first byte, or where it was to begin. For the other refusals it is the
/// point that their own `offset` names, which counts from the start of the innermost field that encloses it. At the end of the body it is the body's length.
/// The refused field itself is not among the fields that enclose the place.
///
/// Its text is `byte 8 of the body, in control, prune, peer`.
#[derive(Clone, Copy, PartialEq, Eq, Hash)]
pub struct Place {
    offset: usize,
    /// 0 for none: no field has that number.
    fields: [u64; Place::DEPTH],
}

impl Place {
    /// How many fields can enclose a place.
    pub const DEPTH: usize = 3;

    /// A place by its offset and the fields around it, the outermost first: for tests of a host, and to compare with.
    ///
    /// # Panics
    ///
    /// If there are above [`Place::DEPTH`] fields, or one has the number 0.
    pub fn new(offset: usize, fields: &[u64]) -> Place {
        assert!(fields.len() <= Place::DEPTH && !fields.contains(&0), "no place has the fields {fields:?} around it");
        let mut own = [0; Place::DEPTH];
        own[..fields.len()].copy_from_slice(fields);
        Place { offset, fields: own }
    }

    /// The place that the library handed out: its offset, and three numbers of fields.
    pub(crate) fn from_call(words: &[u64]) -> Place {
        let [offset, fields @ ..] = words else { panic!("libpradulins.a handed out no place") };
        let count = fields.iter().take_while(|number| **number != 0).count();
        Place::new(*offset as usize, &fields[..count])
    }

    /// How many bytes after the start of the whole body it stands: at most the body's length.
    pub fn offset(&self) -> usize {
        self.offset
    }

    /// The numbers of the fields that enclose it, the outermost first; none where it stands in the body itself.
    pub fn fields(&self) -> &[u64] {
        let count = self.fields.iter().take_while(|number| **number != 0).count();
        &self.fields[..count]
    }

    /// What these fields are called: `subscription`, `message` or `control`; in a control `ihave`, `iwant`, `graft`, `prune` or,
    /// in edition 1.2, `idontwant`; in a prune `peer`.
    pub fn names(&self) -> impl Iterator<Item = &'static str> + '_ {
        (1..=self.fields().len()).map(|depth| name(&self.fields[..depth]))
    }
}

/// The name of the last field of a path.
fn name(path: &[u64]) -> &'static str {
    match path {
        [1] => "subscription",
        [2] => "message",
        [3] => "control",
        [3, 1] => "ihave",
        [3, 2] => "iwant",
        [3, 3] => "graft",
        [3, 4] => "prune",
        [3, 4, 2] => "peer",
        [3, 5] => "idontwant",
        _ => "a field that is not known",
    }
}

impl fmt::Display for Place {
    fn fmt(&self, f: &mut fmt::Formatter<'_>) -> fmt::Result {
        write!(f, "byte {} of the body", self.offset)?;
        for (n, name) in self.names().enumerate() {
            write!(f, "{} {name}", if n == 0 { ", in" } else { "," })?;
        }
        Ok(())
    }
}

impl fmt::Debug for Place {
    fn fmt(&self, f: &mut fmt::Formatter<'_>) -> fmt::Result {
        f.debug_struct("Place").field("offset", &self.offset).field("fields", &self.fields()).finish()
    }
}

#[cfg(test)]
mod tests {
    use super::*;

    /// Every path that the library gives.
    const PATHS: [(&[u64], &str); 10] = [
        (&[], ""),
        (&[1], ", in subscription"),
        (&[2], ", in message"),
        (&[3], ", in control"),
        (&[3, 1], ", in control, ihave"),
        (&[3, 2], ", in control, iwant"),
        (&[3, 3], ", in control, graft"),
        (&[3, 4], ", in control, prune"),
        (&[3, 4, 2], ", in control, prune, peer"),
        (&[3, 5], ", in control, idontwant"),
    ];

    #[test]
    fn words_of_each_path() {
        for (fields, words) in PATHS {
            let place = Place::new(8, fields);
            assert_eq!((place.offset(), place.fields()), (8, fields));
            assert_eq!(place.to_string(), format!("byte 8 of the body{words}"));
            assert_eq!(place.names().collect::<Vec<_>>().join(", "), words.trim_start_matches(", in "));
            assert_eq!(format!("{place:?}"), format!("Place {{ offset: 8, fields: {fields:?} }}"));
        }
        // A field that a later edition may add.
        assert_eq!(Place::new(0, &[3, 6]).to_string(), "byte 0 of the body, in control, a field that is not known");
    }

    #[test]
    fn as_it_is_handed_out() {
        for (fields, _) in PATHS {
            let mut words = [65_536, 0, 0, 0];
            words[1..=fields.len()].copy_from_slice(fields);
            assert_eq!(Place::from_call(&words), Place::new(65_536, fields));
        }
        assert_ne!(Place::new(1, &[3]), Place::new(1, &[]));
        assert_ne!(Place::new(1, &[3]), Place::new(2, &[3]));
    }

    #[test]
    #[should_panic(expected = "no place has the fields [3, 4, 2, 1] around it")]
    fn four_fields_are_none() {
        Place::new(0, &[3, 4, 2, 1]);
    }

    #[test]
    #[should_panic(expected = "no place has the fields [3, 0] around it")]
    fn no_field_is_0() {
        Place::new(0, &[3, 0]);
    }
}
