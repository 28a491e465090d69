//! What a member of an archive that was not taken would have defined.
use crate::ffi::{self, VALUE};
use crate::{ElfSymbol, Link, Object, Refusal, Symbol, SymbolId};

/// A definition of an object that a link doesn't have, though it would have taken over the row of
/// its name, had the object been merged.
#[derive(Clone, Copy, Debug)]
pub struct Untaken<'l> {
    /// Its number in the object's symbol table.
    pub symbol: usize,
    /// Its name.
    pub name: &'l [u8],
    /// The definition, as the object has it.
    pub definition: ElfSymbol,
    /// What holds the name in the link.
    pub holder: Symbol,
}

impl Link {
    /// Of an object that wasn't merged, an archive's member that no walk took, each definition that
    /// would have taken over the row of its name: a name that the link has undefined; a strong
    /// definition or a common of one that it holds weakly; a strong definition that is no common of
    /// one that it holds as a common. Meant for the end of a whole link, of each member of the
    /// archives' indexes that no walk took: a link is then without what the member would have
    /// brought. In the order of the object's symbols.
    ///
    /// The symbols are those of the table that a merge would load, each by its own entry: groups
    /// and excluded sections aren't asked. A name that the link doesn't have, or whose symbol was
    /// removed, is not told. 1 if a row of the object is bad. Works on a broken link too.
    pub fn would_define(&self, object: &Object<'_>) -> Result<Vec<Untaken<'_>>, Refusal> {
        let mut header = self.header;
        let mut told = vec![0; 2 * object.symbol_count()];
        ffi::would_define(
            &mut header,
            &self.bytes,
            &self.names,
            &self.symbols,
            &object.headers,
            &object.entries,
            &object.contents,
            &object.file,
            &mut told,
        )
        .map_err(|refusal| self.tell_object(refusal, object))?;
        let told = told.as_chunks().0.iter().take(header[VALUE] as usize);
        let told = told.map(|[symbol, row]| {
            let symbol = *symbol as usize;
            let holder = self.get(SymbolId::of_cell(*row))?;
            let name = self.resolve(holder.name)?;
            Ok(Untaken { symbol, name, definition: object.loaded_symbol(symbol), holder })
        });
        told.collect()
    }
}

impl Object<'_> {
    /// A symbol of the last table that isn't excluded; of two a merge refuses the second.
    fn loaded_symbol(&self, symbol: usize) -> ElfSymbol {
        let mut headers = self.headers.as_chunks::<8>().0.iter();
        let table = headers.rfind(|row| row[0] == 3 && row[2] & 1 == 0);
        let [.., first, _, _] = table.expect("the table of a symbol that was told");
        ElfSymbol::of_cells(&self.entries.as_chunks().0[*first as usize + symbol])
    }
}
