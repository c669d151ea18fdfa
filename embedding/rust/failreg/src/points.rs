//! The points that are set, for threads that read them without a lock.

use crate::memory::copied;
use std::collections::{HashSet, TryReserveError};
use std::sync::atomic::{AtomicU64, Ordering};

const WORDS: usize = 256;

/// The number of the configurations in which no point is set.
const NOTHING_SET: u64 = 0;

/// The last number of configurations. No two configurations of a program have the same number,
/// whichever registry they belong to, except those in which nothing is set. It orders no memory
/// access.
static LAST_SETTINGS: AtomicU64 = AtomicU64::new(NOTHING_SET);

/// A `fail_point!` in a program's source, whose point always has the same name. It caches the
/// configurations in which that point was last found unset, those in which it was found set, and
/// the point's number in a node. Threads of several registries may overwrite each other's entries,
/// so each entry is one atomic word and guards nothing else.
#[derive(Debug)]
pub struct Site {
    /// Read without a lock, written under the lock of the registry with these configurations.
    unset_in: AtomicU64,
    /// Read and written under a registry's lock.
    set_in: AtomicU64,
    /// The number of the node, in the low bits that of the point, plus 1. Read and written under
    /// the lock of the node's registry.
    point: AtomicU64,
}

impl Site {
    /// A site with an empty cache.
    pub const fn new() -> Site {
        Site {
            unset_in: AtomicU64::new(NOTHING_SET),
            set_in: AtomicU64::new(NOTHING_SET),
            point: AtomicU64::new(0),
        }
    }

    /// Returns the number of the site's point in a node, if it is cached.
    pub(crate) fn point_of(&self, node: u64) -> Option<u32> {
        let point = self.point.load(Ordering::Relaxed);
        let number = (point & POINTS).checked_sub(1)?;
        (point >> POINT_BITS == node).then_some(number as u32)
    }

    /// Caches the number of the site's point in a node, if both fit.
    pub(crate) fn has_point(&self, node: u64, number: u32) {
        let number = u64::from(number) + 1;
        if number <= POINTS && node <= u64::MAX >> POINT_BITS {
            let point = node << POINT_BITS | number;
            self.point.store(point, Ordering::Relaxed);
        }
    }
}

/// How many bits of a site's word are the point's number, and the largest such number.
const POINT_BITS: u32 = 24;
const POINTS: u64 = (1 << POINT_BITS) - 1;

impl Default for Site {
    fn default() -> Site {
        Site::new()
    }
}

/// The configurations of a registry, and a bit for each name that is set in them: if a point's bit
/// is 0, the point isn't set. Another name may have the same bit, so if it is 1, `names` decides.
pub struct Shown {
    /// The number of the configurations. Written last, with `Release`, under the registry's lock: a
    /// thread that reads it with `Acquire` sees the words of these configurations, or of later
    /// ones.
    settings: AtomicU64,
    /// The bits of the names. Written under the registry's lock, read without.
    words: [AtomicU64; WORDS],
}

fn place(name: &str) -> (usize, u64) {
    let hash = name.bytes().fold(0xcbf2_9ce4_8422_2325_u64, |hash, byte| {
        (hash ^ u64::from(byte)).wrapping_mul(0x0000_0100_0000_01b3)
    });
    let bit = (hash ^ (hash >> 32)) as usize % (64 * WORDS);
    (bit / 64, 1 << (bit % 64))
}

fn words_of(names: &HashSet<String>) -> [u64; WORDS] {
    let mut words = [0; WORDS];
    for name in names {
        let (word, bit) = place(name);
        words[word] |= bit;
    }
    words
}

impl Shown {
    pub fn new() -> Shown {
        Shown {
            settings: AtomicU64::new(NOTHING_SET),
            words: [const { AtomicU64::new(0) }; WORDS],
        }
    }

    #[inline]
    pub fn may_be_set(&self, name: &str) -> bool {
        if self.settings.load(Ordering::Acquire) == NOTHING_SET {
            return false;
        }
        let (word, bit) = place(name);
        self.words[word].load(Ordering::Acquire) & bit != 0
    }

    /// Returns whether the point of a site may be set. The site's cache counts only for these
    /// configurations.
    #[inline]
    pub fn may_be_set_at(&self, site: &Site) -> bool {
        let settings = self.settings.load(Ordering::Acquire);
        settings != NOTHING_SET && settings != site.unset_in.load(Ordering::Relaxed)
    }

    /// Returns whether the point of a site is set, from its cache or else from `look`, and caches
    /// it. No other thread may publish names meanwhile.
    pub fn is_set_at(&self, site: &Site, look: impl FnOnce() -> bool) -> bool {
        let settings = self.settings.load(Ordering::Relaxed);
        if site.set_in.load(Ordering::Relaxed) == settings && settings != NOTHING_SET {
            return true;
        }
        let is_set = look();
        let remembered = if is_set { &site.set_in } else { &site.unset_in };
        remembered.store(settings, Ordering::Relaxed);
        is_set
    }

    /// Publishes these names, as configurations with a new number; `None` means that any name may
    /// be set. A bit that stays set is never 0 meanwhile.
    pub fn show(&self, names: Option<&HashSet<String>>) {
        let words = names.map_or([u64::MAX; WORDS], words_of);
        for (shown, word) in self.words.iter().zip(words) {
            shown.store(word, Ordering::Release);
        }
        let settings = match names.is_some_and(HashSet::is_empty) {
            true => NOTHING_SET,
            false => LAST_SETTINGS.fetch_add(1, Ordering::Relaxed) + 1,
        };
        self.settings.store(settings, Ordering::Release);
    }
}

/// Returns the names of a list `name=actions;name=actions`. No action string has a `;`, and no name
/// a `=`.
pub fn names_in(list: &str) -> Result<HashSet<String>, TryReserveError> {
    let mut names = HashSet::new();
    for (name, _) in list.split(';').filter_map(|entry| entry.split_once('=')) {
        names.try_reserve(1)?;
        names.insert(copied(name)?);
    }
    Ok(names)
}

#[cfg(test)]
mod tests {
    use super::*;

    #[test]
    fn names_that_are_not_known_may_all_be_set() {
        let (shown, site) = (Shown::new(), Site::new());
        assert!(!shown.may_be_set("p") && !shown.may_be_set_at(&site));
        shown.show(None);
        assert!(shown.may_be_set("p") && shown.may_be_set_at(&site));
        assert!(!shown.is_set_at(&site, || false));
        assert!(!shown.may_be_set_at(&site));
        // Published again they are other configurations, of which the site has no entry.
        shown.show(None);
        assert!(shown.may_be_set_at(&site));
        shown.show(Some(&HashSet::new()));
        assert!(!shown.may_be_set("p") && !shown.may_be_set_at(&site));
    }

    #[test]
    fn a_list_has_names() {
        let names = names_in("a=off;b.c=1*return(x=y)->off").unwrap();
        assert_eq!(names, HashSet::from(["a".into(), "b.c".into()]));
        assert!(names_in("").unwrap().is_empty());
    }
}
