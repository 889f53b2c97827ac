use coombtray::ffi;
use smol_str::SmolStr;

use crate::refusal::Refused;

/// The most bytes of a name.
const LONGEST: usize = 64;

/// The names that nodes use, sorted by bytes, as the library wants them. A name enters when a node with it comes; those
/// above it move up by one. So each also has a number that stays: the order of its coming.
#[derive(Clone, Default)]
pub(crate) struct Names {
    /// By rank, as the two below.
    texts: Vec<SmolStr>,
    /// The same for the library: a length byte before each.
    table: Vec<u8>,
    came_at: Vec<u16>,
}

fn fits(name: &SmolStr) -> bool {
    (1..=LONGEST).contains(&name.len()) && name.bytes().all(|byte| (32..=126).contains(&byte))
}

impl Names {
    pub fn table(&self) -> &[u8] {
        &self.table
    }

    pub fn rank(&self, name: &SmolStr) -> Option<u32> {
        let rank = self.texts.binary_search(name);
        rank.ok().map(|rank| rank as u32)
    }

    pub fn text(&self, rank: u32) -> &SmolStr {
        &self.texts[rank as usize]
    }

    /// The number that stays, of the name with this rank.
    pub fn came_at(&self, rank: u32) -> u32 {
        self.came_at[rank as usize].into()
    }

    /// Takes in those of these names that aren't there, or none of them if one doesn't fit. Gives the new rank of each
    /// name that was there, by its old one.
    pub fn enter<'a>(
        &mut self,
        names: impl Iterator<Item = &'a SmolStr>,
    ) -> Result<Vec<u16>, Refused> {
        let fresh: Vec<&SmolStr> = names.filter(|name| self.rank(name).is_none()).collect();
        if !fresh.iter().all(|name| fits(name)) || !self.has_room(&fresh) {
            return Err(Refused::NAMES);
        }
        let mut ranks: Vec<u16> = (0..self.texts.len()).map(|rank| rank as u16).collect();
        for name in fresh {
            let entered = self.insert(name);
            for rank in &mut ranks {
                *rank += u16::from(usize::from(*rank) >= entered);
            }
        }
        Ok(ranks)
    }

    fn has_room(&self, fresh: &[&SmolStr]) -> bool {
        let bytes: usize = fresh.iter().map(|name| 1 + name.len()).sum();
        self.texts.len() + fresh.len() <= ffi::NAMES && self.table.len() + bytes <= ffi::TABLE
    }

    /// The rank at which a name has entered.
    fn insert(&mut self, name: &SmolStr) -> usize {
        let rank = self.texts.partition_point(|text| text < name);
        let at: usize = self.texts[..rank].iter().map(|text| 1 + text.len()).sum();
        let bytes = [name.len() as u8].into_iter().chain(name.bytes());
        self.table.splice(at..at, bytes);
        self.came_at.insert(rank, self.texts.len() as u16);
        self.texts.insert(rank, name.clone());
        rank
    }
}
