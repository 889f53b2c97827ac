use std::ops::Range;

use crate::{compare_names, memory, Refusal};

/// The names that the nodes of an arena may use, at most 4,096: sorted bytewise, each once.
#[derive(Debug, Clone, Default, PartialEq, Eq)]
pub struct Names {
    table: Vec<u8>,
    /// Where the text of each name lies in the table.
    places: Vec<Range<usize>>,
}

impl Names {
    /// The table of these names in any order, repeats allowed; 1 if one isn't 1 to 64 bytes from 32 to 126, or if there
    /// are over 4,096 of them, or over 65,536 bytes with a length byte for each.
    pub fn new<T: AsRef<str>>(names: impl IntoIterator<Item = T>) -> Result<Names, Refusal> {
        let texts = names.into_iter().map(|name| name.as_ref().to_string());
        let mut texts: Vec<String> = texts.collect();
        // By the library's order, so that one comparison serves here and in `find`.
        texts.sort_by(|left, right| compare_names(left, right));
        texts.dedup_by(|left, right| compare_names(left, right).is_eq());
        let (mut table, mut places) = (Vec::new(), Vec::new());
        for text in &texts {
            // The library refuses a length of 255, so a longer name isn't taken for a short one.
            table.push(u8::try_from(text.len()).unwrap_or(u8::MAX));
            let start = table.len();
            table.extend(text.as_bytes());
            places.push(start..table.len());
        }
        let count = memory::check_names(&table)?;
        assert_eq!(count, places.len(), "the library counts other names");
        Ok(Names { table, places })
    }

    pub fn len(&self) -> usize {
        self.places.len()
    }

    pub fn is_empty(&self) -> bool {
        self.places.is_empty()
    }

    pub fn iter(&self) -> impl Iterator<Item = &str> {
        self.places.iter().map(|place| self.at(place))
    }

    /// The table as the library reads it, and as it stands in a sheet: a length byte before each name.
    pub fn table(&self) -> &[u8] {
        &self.table
    }

    /// The number of the name that is this text, or, as `Err`, how many names come before the text, which is where it would
    /// stand: as by [`slice::binary_search`]. Any text may be sought, also one that can be no name.
    ///
    /// The library judges the whole table at each call (docs/HOST.md has what that takes).
    ///
    /// ```
    /// use coombtray::Names;
    ///
    /// let names = Names::new(["pitch", "roll"])?;
    /// assert_eq!(names.find("roll"), Ok(1));
    /// assert_eq!(names.find("rol"), Err(1));
    /// assert_eq!(names.find("yaw"), Err(2));
    /// assert_eq!(names.find(""), Err(0));
    /// # Ok::<(), coombtray::Refusal>(())
    /// ```
    pub fn find(&self, text: impl AsRef<[u8]>) -> Result<u32, u32> {
        let found = memory::find_name(&self.table, text.as_ref());
        found.expect("the table was judged when it was made")
    }

    pub(crate) fn text(&self, number: u32) -> &str {
        self.at(&self.places[number as usize])
    }

    fn at(&self, place: &Range<usize>) -> &str {
        std::str::from_utf8(&self.table[place.clone()]).expect("bytes from 32 to 126 are a text")
    }
}
