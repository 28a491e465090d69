//! A whole archive through `ObjectsReader`: it opens the file, makes the walk and offers members.
use super::read_objects::{NextObject, ObjectsReader};
use super::{Groups, MergeElfError, ReadObjectsError, Required, merge};
use crate::cli::{CliInput, CliInputOptions};
use crate::repr::object::Object;
use cuddld_diagnostics::ObjectSpan;
use std::path::Path;

pub(crate) enum Offer {
    /// The member at this offset; what became of it follows, unless its merge panics.
    Offered(u64),
    NotAdmitted,
    Merged,
    Refused(MergeElfError),
}

/// Tells each offer as it is made, so that those before a panic are told too.
pub(crate) fn walk(
    object: &mut Object,
    groups: &mut Groups,
    archive: &Path,
    tell: &mut dyn FnMut(Offer),
) -> Result<(), ReadObjectsError> {
    let inputs = [CliInput {
        path: archive.into(),
        library_name: "archive".into(),
        options: CliInputOptions { as_needed: false },
    }];
    let mut reader = ObjectsReader::new(&[], &inputs);
    while let Some(next) = reader.next_object(&object.symbols)? {
        let NextObject { reader, requirements, source, .. } = next;
        let ObjectSpan::ArchiveMember { member, .. } = &source else {
            panic!("oracle: an offer that is no member");
        };
        let offset: u64 = member.parse().expect("oracle: an offset");
        let elf = reader.object().expect("oracle: members are objects");
        tell(Offer::Offered(offset));
        if !Required(requirements).admits(&elf) {
            tell(Offer::NotAdmitted);
            continue;
        }
        match merge(object, groups, elf, source) {
            Ok(()) => tell(Offer::Merged),
            Err(error) => {
                tell(Offer::Refused(error));
                return Ok(());
            }
        }
    }
    Ok(())
}
