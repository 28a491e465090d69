//! The walk over the members of archives.
use crate::ffi::{self, Header, VALUE, Walk};
use crate::{About, Cause, Link, Object, Refusal, Symbol};
use std::borrow::Cow;
use std::hash::{BuildHasher, RandomState};

/// How many archives a walk may have.
const ARCHIVES: usize = 16;

/// How many entries their indexes may have together.
const ENTRIES: usize = 65_535;

/// A walk over an archive by its System V index, or over several as one: archives whose members need
/// each other, as between a linker's `--start-group` and `--end-group`.
///
/// Each call for the next member is lent the link as it stands then. Where no member is queued it
/// makes a pass over the indexes and queues, in the order of the first entries that ask for them,
/// the members not offered yet that an index ties to an undefined name; in a link of the gABI's
/// profile a weak reference ties none. A pass that queues nothing ends the walk. Indexes of m
/// members take at most m + 1 passes.
///
/// Archives have the order in which they are given, and numbers from 0; entries are counted over all
/// of them, in that order. A member is known by its archive and its offset there: an archive that is
/// given twice counts as two.
#[derive(Clone, Debug)]
pub struct PendingArchive<'a> {
    /// The indexes, one behind the other, and where each ends.
    indexes: Cow<'a, [u8]>,
    ends: Vec<u64>,
    rows: Vec<u64>,
    walk: Walk,
}

/// A member that is offered.
#[derive(Clone, Copy, Debug, PartialEq, Eq)]
pub struct Member {
    /// Its archive, by the order in which they were given.
    pub archive: usize,
    /// Its offset in the archive.
    pub offset: u64,
    /// The passes made so far.
    pub passes: u64,
    entry: usize,
}

/// An entry of an archive's index.
#[derive(Clone, Copy, Debug, PartialEq, Eq)]
pub struct IndexEntry<'a> {
    /// The archive, by the order in which they were given.
    pub archive: usize,
    /// The offset of its member in the archive.
    pub offset: u64,
    /// Its name.
    pub name: &'a [u8],
}

/// An entry of an index that a walk passed by: a weak definition holds its name while its member
/// was not offered, whatever it defines; or its name is undefined although its member was.
#[derive(Clone, Copy, Debug)]
pub struct Shadowed<'a> {
    /// Its position among all entries.
    pub entry: usize,
    /// The archive, by the order in which they were given.
    pub archive: usize,
    /// The offset of its member in the archive.
    pub offset: u64,
    /// Its name.
    pub name: &'a [u8],
    /// What holds the name.
    pub holder: Symbol,
}

/// A step of a walk.
#[derive(Clone, Copy, Debug, PartialEq, Eq)]
pub enum Step {
    /// This member is offered; whether it is to be merged, `PendingArchive::admits` tells.
    Member(Member),
    /// No name that ties is tied to a member that wasn't offered.
    Done {
        /// The passes made.
        passes: u64,
    },
}

/// The indexes by where they end; one whose end is below the one before or past the bytes is empty
/// here.
fn parts<'i>(indexes: &'i [u8], ends: &[u64]) -> impl Iterator<Item = &'i [u8]> {
    let mut start = 0;
    ends.iter().map(move |end| {
        let end = usize::try_from(*end).unwrap_or(usize::MAX);
        indexes.get(std::mem::replace(&mut start, end)..end).unwrap_or_default()
    })
}

/// How many entries an index says that it has.
fn said(index: &[u8]) -> usize {
    index.first_chunk().map_or(0, |count| u32::from_be_bytes(*count) as usize)
}

/// How many entries an index has, if it isn't cut short.
fn count(index: &[u8]) -> usize {
    said(index).min(index.len() / 4)
}

/// Which of several archives a refused start is about, where it is one: that with the end or the
/// empty index, or that of the entry.
fn refused_archive(refusal: &Refusal, indexes: &[u8], ends: &[u64]) -> Option<usize> {
    let place = refusal.place;
    match (refusal.cause, ends.len()) {
        (Cause::NoIndex, 2..) => return Some(place),
        (Cause::OutOfRange, 2..=ARCHIVES) => {}
        _ => return None,
    }
    let starts = [0].iter().chain(ends);
    if let Some(bad) =
        starts.zip(ends).position(|(start, end)| start > end || *end > indexes.len() as u64)
    {
        return Some(bad);
    }
    let mut before = 0;
    parts(indexes, ends).position(|index| {
        before += said(index);
        index.len() < 4 || place < before
    })
}

impl<'a> PendingArchive<'a> {
    /// Opens the index of one archive: 20 if it is empty, 1 if it is cut short or has more than 65,535
    /// entries. No pass is made.
    ///
    /// The names required of members are found by a hash whose key is drawn at random, so that
    /// nobody can choose names that make `admits` slow. No answer depends on it.
    pub fn new(index: impl Into<Cow<'a, [u8]>>) -> Result<Self, Refusal> {
        Self::with_key(RandomState::new().hash_one(()), index)
    }

    /// Opens the indexes of up to 16 archives, which are walked as one. One archive alone is walked
    /// as by `new`; without any the walk is done after one pass. More than 16 give 1 at place 16; then
    /// the first empty index 20 at its archive's number; then each index is judged in turn, so that 1
    /// has the place of an entry over all of them: of an index of fewer than four bytes that of its
    /// first, else of the first that is cut short, and 65,535 where they are more together.
    pub fn of(indexes: &[&'a [u8]]) -> Result<Self, Refusal> {
        let key = RandomState::new().hash_one(());
        if let [index] = indexes {
            return Self::with_key(key, *index);
        }
        let mut end = 0;
        let ends = indexes.iter().map(|index| {
            end += index.len() as u64;
            end
        });
        let ends: Vec<_> = ends.collect();
        Self::with_ends(key, indexes.concat(), &ends)
    }

    /// The same with a key that the caller chooses, for runs that are to take the same steps.
    pub fn with_key(key: u64, index: impl Into<Cow<'a, [u8]>>) -> Result<Self, Refusal> {
        let index = index.into();
        let end = index.len() as u64;
        Self::with_ends(key, index, &[end])
    }

    /// The same over indexes that lie one behind the other: each begins where the one before it ends,
    /// and bytes behind the last end belong to none. An end below the one before it, or past the
    /// bytes, gives 1 at its archive's number, before 20. With a key as by `with_key`.
    pub fn with_ends(
        key: u64,
        indexes: impl Into<Cow<'a, [u8]>>,
        ends: &[u64],
    ) -> Result<Self, Refusal> {
        let indexes = indexes.into();
        // No more rows than the indexes have offsets, nor than they may have entries.
        let entries = parts(&indexes, ends).take(ARCHIVES).map(count).sum::<usize>().min(ENTRIES);
        let mut rows = vec![0; entries * 8];
        let (mut header, mut walk): (Header, Walk) = ([0; 24], [0; 7]);
        ffi::archive_start(&mut header, &mut walk, key as usize, &indexes, ends, &mut rows)
            .map_err(|refusal| {
                let about = refused_archive(&refusal, &indexes, ends).map(About::Archive);
                refusal.about(about)
            })?;
        Ok(PendingArchive { indexes, ends: ends.to_vec(), rows, walk })
    }

    /// The cells of the walk, for a report.
    pub(crate) fn walk_cells(&self) -> &Walk {
        &self.walk
    }

    /// How many archives are walked.
    pub fn archive_count(&self) -> usize {
        self.ends.len()
    }

    /// How many entries the indexes have.
    pub fn entry_count(&self) -> usize {
        self.rows.len() / 8
    }

    /// An entry by its position over all indexes, which is the place of a pass' refusal.
    pub fn entry(&self, entry: usize) -> Option<IndexEntry<'_>> {
        let row = self.rows.as_chunks::<8>().0.get(entry)?;
        let mut at = entry;
        for (archive, index) in parts(&self.indexes, &self.ends).enumerate() {
            let entries = count(index);
            if at < entries {
                let offset = u32::from_be_bytes(*index.get(4 * at + 4..)?.first_chunk()?).into();
                return Some(IndexEntry { archive, offset, name: self.name(row) });
            }
            at -= entries;
        }
        None
    }

    /// The name of an entry by its row.
    fn name(&self, row: &[u64; 8]) -> &[u8] {
        let [start, len] = [row[4], row[5]].map(|cell| cell as usize);
        &self.indexes[start..start + len]
    }

    /// The next member, over the link as it stands. A pass that meets a name whose symbol was
    /// removed is refused with 21 at the entry (`entry` tells its name), and isn't counted.
    pub fn next(&mut self, link: &Link) -> Result<Step, Refusal> {
        let mut header = link.header;
        let PendingArchive { indexes, ends, rows, walk } = self;
        ffi::archive_next(
            &mut header,
            walk,
            indexes,
            ends,
            rows,
            &link.bytes,
            &link.names,
            &link.symbols,
        )
        .map_err(|refusal| {
            let about = self.member(refusal.place);
            refusal.about(about)
        })?;
        let [archive, offset, entry, passes, ..] = header[VALUE..] else { unreachable!() };
        Ok(match archive.checked_sub(1) {
            None => Step::Done { passes },
            Some(archive) => {
                let (archive, entry) = (archive as usize, entry as usize);
                Step::Member(Member { archive, offset, passes, entry })
            }
        })
    }

    /// The entries that the walk has passed by so far, in the indexes' order, over the link as it
    /// stands: meant for the end of a walk. A weak definition is a definition and pulls no member,
    /// so a strong one in an archive is left where it is; this tells of each. A name whose symbol
    /// was removed is not told. Works on a broken link too.
    ///
    /// Where the walk is done over this link and nothing is told, each name of the indexes that the
    /// link knows is held by a strong definition or a global common, or by a weak one though its
    /// member was offered; in a link of the gABI's profile perhaps by a weak reference, which asks
    /// for no member. A member that was offered and that `admits` left out isn't told here.
    pub fn shadowed(&self, link: &Link) -> Result<Vec<Shadowed<'_>>, Refusal> {
        let mut header = link.header;
        let mut told = vec![0; self.entry_count()];
        let PendingArchive { indexes, rows, walk, .. } = self;
        ffi::shadowed(
            &mut header,
            walk,
            indexes,
            rows,
            &link.bytes,
            &link.names,
            &link.symbols,
            &mut told,
        )?;
        told.truncate(header[VALUE] as usize);
        let told = told.into_iter().map(|entry| {
            let entry = entry as usize;
            let IndexEntry { archive, offset, name } =
                self.entry(entry).expect("an entry of an index");
            let id = link.find(name).expect("a name that the link has");
            Ok(Shadowed { entry, archive, offset, name, holder: link.get_global(id)? })
        });
        told.collect()
    }

    /// Whether an offered member is to be merged: some symbol of binding 1 in its object bears a
    /// name that tied it in the pass that queued it; in a link of the gABI's profile a definition,
    /// weak or global, does. Of the link its profile alone counts. 1 if a row of the object is bad.
    ///
    /// The member must be one of this walk. Another walk's stands for whatever entry has its number
    /// here, and gives 1 if there is none.
    pub fn admits(
        &self,
        link: &Link,
        member: &Member,
        object: &Object<'_>,
    ) -> Result<bool, Refusal> {
        let mut header = link.header;
        ffi::matches(
            &mut header,
            &self.walk,
            &self.indexes,
            &self.rows,
            member.entry,
            &object.headers,
            &object.entries,
            &object.contents,
            &object.file,
        )
        .map_err(|refusal| refusal.about(self.member(member.entry)))?;
        Ok(header[VALUE] == 1)
    }

    /// The member of an entry, for a refusal.
    fn member(&self, entry: usize) -> Option<About> {
        let IndexEntry { archive, offset, name } = self.entry(entry)?;
        Some(About::Member { archive, offset, name: name.to_vec() })
    }

    /// The names that tied the member in the pass that queued it, by the indexes' entries. A
    /// member of another walk is taken as by `admits`; if no entry has its number there are none.
    pub fn required<'b>(&'b self, member: &Member) -> impl Iterator<Item = &'b [u8]> {
        let rows = self.rows.as_chunks::<8>().0;
        let representative = rows.get(member.entry).map(|row| row[1]);
        rows.iter()
            .filter(move |row| row[0] == 1 && Some(row[1]) == representative)
            .map(|row| self.name(row))
    }

    /// The passes made so far.
    pub fn passes(&self) -> u64 {
        self.walk[3]
    }
}
