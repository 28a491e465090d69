//! The calls of libhidvorn.a, each behind a safe function. The only module with unsafe code.
//!
//! Why the calls are sound. What the archive promises of each function (crates/hidvorn, proved): it is
//! total, whatever its arguments hold; it reads and writes nothing but the slices that it is lent,
//! and of those writes only the `*mut` ones; it keeps no pointer and never unwinds. What these
//! wrappers see to: every pointer and length are those of one Rust slice or array, so that the
//! memory is there, initialised, aligned and live during the call, and a pointer is never null; a
//! `*mut` comes from a `&mut`, so that it overlaps no other slice of the call; cells of `u64` and
//! `u8` have no invalid values, so that whatever is written is good. That the declarations below
//! are those of the archive can't be checked by either compiler: they are written from the
//! functions' signatures, where a slice is a pointer and a length, and tests/declarations.rs
//! compares them with these, and with the header for C.
use crate::{Cause, Refusal};

/// The link's counts (0 to 7), whether it is broken (8), the last answer: number, place, values (9
/// to 14), the key of its names (15) and its profile (16); the others are left as they are.
pub(crate) type Header = [u64; 24];

/// Key, entries, length of the indexes, passes, queued, offered, done.
pub(crate) type Walk = [u64; 7];

/// The first value of an answer in a header.
pub(crate) const VALUE: usize = 11;

/// The key of the names' hash.
pub(crate) const KEY: usize = 15;

/// The profile of the link.
pub(crate) const PROFILE: usize = 16;

fn cause(number: u64) -> Cause {
    Cause::of_number(number).expect("a number of the documents' table")
}

fn answer(header: &Header) -> Result<(), Refusal> {
    match header[9] {
        0 => Ok(()),
        number => Err(Refusal::new(cause(number), header[10] as usize)),
    }
}

unsafe extern "C" {
    fn hidvorn_new(
        header: *mut u64,
        header_len: usize,
        key: usize,
        profile: u64,
        bytes: *mut u8,
        bytes_len: usize,
        names: *mut u64,
        names_len: usize,
        symbols: *mut u64,
        symbols_len: usize,
        sections: *mut u64,
        sections_len: usize,
    ) -> u64;

    fn hidvorn_intern(
        header: *mut u64,
        header_len: usize,
        bytes: *mut u8,
        bytes_len: usize,
        names: *mut u64,
        names_len: usize,
        name: *const u8,
        name_len: usize,
    ) -> u64;

    fn hidvorn_resolve(
        header: *mut u64,
        header_len: usize,
        bytes: *const u8,
        bytes_len: usize,
        names: *const u64,
        names_len: usize,
        id: usize,
    ) -> u64;

    fn hidvorn_find(
        header: *mut u64,
        header_len: usize,
        bytes: *const u8,
        bytes_len: usize,
        names: *const u64,
        names_len: usize,
        name: *const u8,
        name_len: usize,
    ) -> u64;

    fn hidvorn_add(
        header: *mut u64,
        header_len: usize,
        names: *mut u64,
        names_len: usize,
        symbols: *mut u64,
        symbols_len: usize,
        sections: *mut u64,
        sections_len: usize,
        conversion: *const u64,
        conversion_len: usize,
        item: *const u64,
        item_len: usize,
    ) -> u64;

    fn hidvorn_add_list(
        header: *mut u64,
        header_len: usize,
        names: *mut u64,
        names_len: usize,
        symbols: *mut u64,
        symbols_len: usize,
        sections: *mut u64,
        sections_len: usize,
        conversion: *const u64,
        conversion_len: usize,
        adds: *const u64,
        adds_len: usize,
        ids: *mut u64,
        ids_len: usize,
    ) -> u64;

    fn hidvorn_remove(
        header: *mut u64,
        header_len: usize,
        symbols: *mut u64,
        symbols_len: usize,
        sections: *mut u64,
        sections_len: usize,
        id: usize,
    ) -> u64;

    fn hidvorn_get(
        header: *mut u64,
        header_len: usize,
        symbols: *const u64,
        symbols_len: usize,
        id: usize,
        out: *mut u64,
        out_len: usize,
    ) -> u64;

    fn hidvorn_get_global(
        header: *mut u64,
        header_len: usize,
        names: *const u64,
        names_len: usize,
        symbols: *const u64,
        symbols_len: usize,
        name: usize,
        out: *mut u64,
        out_len: usize,
    ) -> u64;

    fn hidvorn_section_symbol_id(
        header: *mut u64,
        header_len: usize,
        sections: *const u64,
        sections_len: usize,
        section: usize,
    ) -> u64;

    fn hidvorn_add_group(
        header: *mut u64,
        header_len: usize,
        bytes: *mut u8,
        bytes_len: usize,
        names: *mut u64,
        names_len: usize,
        work: *mut u64,
        work_len: usize,
        headers: *const u64,
        headers_len: usize,
        entries: *const u64,
        entries_len: usize,
        contents: *const u64,
        contents_len: usize,
        file: *const u8,
        file_len: usize,
        table: usize,
        section: usize,
    ) -> u64;

    fn hidvorn_merge_elf(
        header: *mut u64,
        header_len: usize,
        bytes: *mut u8,
        bytes_len: usize,
        names: *mut u64,
        names_len: usize,
        symbols: *mut u64,
        symbols_len: usize,
        sections: *mut u64,
        sections_len: usize,
        inputs: *mut u64,
        inputs_len: usize,
        lists: *mut u64,
        lists_len: usize,
        work: *mut u64,
        work_len: usize,
        ids: *mut u64,
        ids_len: usize,
        headers: *const u64,
        headers_len: usize,
        entries: *const u64,
        entries_len: usize,
        contents: *const u64,
        contents_len: usize,
        file: *const u8,
        file_len: usize,
        strings: usize,
    ) -> u64;

    fn hidvorn_preview_elf(
        header: *mut u64,
        header_len: usize,
        bytes: *const u8,
        bytes_len: usize,
        names: *const u64,
        names_len: usize,
        symbols: *const u64,
        symbols_len: usize,
        sections: *const u64,
        sections_len: usize,
        inputs: *const u64,
        inputs_len: usize,
        lists: *const u64,
        lists_len: usize,
        copy: *mut u64,
        copy_len: usize,
        copy_bytes: *mut u8,
        copy_bytes_len: usize,
        copy_names: *mut u64,
        copy_names_len: usize,
        copy_symbols: *mut u64,
        copy_symbols_len: usize,
        copy_sections: *mut u64,
        copy_sections_len: usize,
        copy_inputs: *mut u64,
        copy_inputs_len: usize,
        copy_lists: *mut u64,
        copy_lists_len: usize,
        work: *mut u64,
        work_len: usize,
        ids: *mut u64,
        ids_len: usize,
        headers: *const u64,
        headers_len: usize,
        entries: *const u64,
        entries_len: usize,
        contents: *const u64,
        contents_len: usize,
        file: *const u8,
        file_len: usize,
        strings: usize,
    ) -> u64;

    fn hidvorn_count_file(
        answer: *mut u64,
        answer_len: usize,
        file: *const u8,
        file_len: usize,
    ) -> u64;

    fn hidvorn_read_file(
        answer: *mut u64,
        answer_len: usize,
        rows: *mut u64,
        rows_len: usize,
        file: *const u8,
        file_len: usize,
    ) -> u64;

    fn hidvorn_merge_file(
        header: *mut u64,
        header_len: usize,
        bytes: *mut u8,
        bytes_len: usize,
        names: *mut u64,
        names_len: usize,
        symbols: *mut u64,
        symbols_len: usize,
        sections: *mut u64,
        sections_len: usize,
        inputs: *mut u64,
        inputs_len: usize,
        lists: *mut u64,
        lists_len: usize,
        work: *mut u64,
        work_len: usize,
        ids: *mut u64,
        ids_len: usize,
        rows: *mut u64,
        rows_len: usize,
        file: *const u8,
        file_len: usize,
    ) -> u64;

    fn hidvorn_load_shared_object(
        header: *mut u64,
        header_len: usize,
        bytes: *mut u8,
        bytes_len: usize,
        names: *mut u64,
        names_len: usize,
        symbols: *mut u64,
        symbols_len: usize,
        sections: *mut u64,
        sections_len: usize,
        inputs: *mut u64,
        inputs_len: usize,
        lists: *mut u64,
        lists_len: usize,
        marks: *mut u64,
        marks_len: usize,
        entries: *const u64,
        entries_len: usize,
        file: *const u8,
        file_len: usize,
        needs: *const u64,
        needs_len: usize,
        path: *const u8,
        path_len: usize,
        archived: bool,
        sonamed: bool,
        soname: usize,
        asneeded: bool,
    ) -> u64;

    fn hidvorn_archive_start(
        header: *mut u64,
        header_len: usize,
        walk: *mut u64,
        walk_len: usize,
        key: usize,
        index: *const u8,
        index_len: usize,
        ends: *const u64,
        ends_len: usize,
        rows: *mut u64,
        rows_len: usize,
    ) -> u64;

    fn hidvorn_archive_next(
        header: *mut u64,
        header_len: usize,
        walk: *mut u64,
        walk_len: usize,
        index: *const u8,
        index_len: usize,
        ends: *const u64,
        ends_len: usize,
        rows: *mut u64,
        rows_len: usize,
        bytes: *const u8,
        bytes_len: usize,
        names: *const u64,
        names_len: usize,
        symbols: *const u64,
        symbols_len: usize,
    ) -> u64;

    fn hidvorn_shadowed(
        header: *mut u64,
        header_len: usize,
        walk: *const u64,
        walk_len: usize,
        index: *const u8,
        index_len: usize,
        rows: *const u64,
        rows_len: usize,
        bytes: *const u8,
        bytes_len: usize,
        names: *const u64,
        names_len: usize,
        symbols: *const u64,
        symbols_len: usize,
        told: *mut u64,
        told_len: usize,
    ) -> u64;

    fn hidvorn_matches(
        header: *mut u64,
        header_len: usize,
        walk: *const u64,
        walk_len: usize,
        index: *const u8,
        index_len: usize,
        rows: *const u64,
        rows_len: usize,
        entry: usize,
        headers: *const u64,
        headers_len: usize,
        entries: *const u64,
        entries_len: usize,
        contents: *const u64,
        contents_len: usize,
        file: *const u8,
        file_len: usize,
    ) -> u64;

    fn hidvorn_would_define(
        header: *mut u64,
        header_len: usize,
        bytes: *const u8,
        bytes_len: usize,
        names: *const u64,
        names_len: usize,
        symbols: *const u64,
        symbols_len: usize,
        headers: *const u64,
        headers_len: usize,
        entries: *const u64,
        entries_len: usize,
        contents: *const u64,
        contents_len: usize,
        file: *const u8,
        file_len: usize,
        told: *mut u64,
        told_len: usize,
    ) -> u64;

    fn hidvorn_gc_run(
        header: *mut u64,
        header_len: usize,
        bytes: *const u8,
        bytes_len: usize,
        names: *const u64,
        names_len: usize,
        symbols: *mut u64,
        symbols_len: usize,
        sections: *mut u64,
        sections_len: usize,
        lists: *const u64,
        lists_len: usize,
        marks: *const u8,
        marks_len: usize,
        entered: bool,
        entry: usize,
        work: *mut u64,
        work_len: usize,
    ) -> u64;

    fn hidvorn_report_title(
        header: *mut u64,
        header_len: usize,
        walk: *const u64,
        walk_len: usize,
        symbols: *const u64,
        symbols_len: usize,
        sections: *const u64,
        sections_len: usize,
        report: *mut u64,
        report_len: usize,
        figures: *mut u64,
        figures_len: usize,
    ) -> u64;

    fn hidvorn_plain_run(
        header: *mut u64,
        header_len: usize,
        bytes: *const u8,
        bytes_len: usize,
        names: *const u64,
        names_len: usize,
        symbols: *mut u64,
        symbols_len: usize,
        sections: *mut u64,
        sections_len: usize,
        lists: *const u64,
        lists_len: usize,
        marks: *const u8,
        marks_len: usize,
        entered: bool,
        entry: usize,
        work: *mut u64,
        work_len: usize,
    ) -> u64;
}

pub(crate) fn new(
    header: &mut Header,
    key: usize,
    profile: u64,
    bytes: &mut [u8],
    names: &mut [u64],
    symbols: &mut [u64],
    sections: &mut [u64],
) -> Result<(), Refusal> {
    // SAFETY: see the module.
    unsafe {
        hidvorn_new(
            header.as_mut_ptr(),
            header.len(),
            key,
            profile,
            bytes.as_mut_ptr(),
            bytes.len(),
            names.as_mut_ptr(),
            names.len(),
            symbols.as_mut_ptr(),
            symbols.len(),
            sections.as_mut_ptr(),
            sections.len(),
        );
    }
    answer(header)
}

pub(crate) fn intern(
    header: &mut Header,
    bytes: &mut [u8],
    names: &mut [u64],
    name: &[u8],
) -> Result<(), Refusal> {
    // SAFETY: see the module.
    unsafe {
        hidvorn_intern(
            header.as_mut_ptr(),
            header.len(),
            bytes.as_mut_ptr(),
            bytes.len(),
            names.as_mut_ptr(),
            names.len(),
            name.as_ptr(),
            name.len(),
        );
    }
    answer(header)
}

pub(crate) fn resolve(
    header: &mut Header,
    bytes: &[u8],
    names: &[u64],
    id: usize,
) -> Result<(), Refusal> {
    // SAFETY: see the module.
    unsafe {
        hidvorn_resolve(
            header.as_mut_ptr(),
            header.len(),
            bytes.as_ptr(),
            bytes.len(),
            names.as_ptr(),
            names.len(),
            id,
        );
    }
    answer(header)
}

pub(crate) fn find(
    header: &mut Header,
    bytes: &[u8],
    names: &[u64],
    name: &[u8],
) -> Result<(), Refusal> {
    // SAFETY: see the module.
    unsafe {
        hidvorn_find(
            header.as_mut_ptr(),
            header.len(),
            bytes.as_ptr(),
            bytes.len(),
            names.as_ptr(),
            names.len(),
            name.as_ptr(),
            name.len(),
        );
    }
    answer(header)
}

pub(crate) fn add(
    header: &mut Header,
    names: &mut [u64],
    symbols: &mut [u64],
    sections: &mut [u64],
    conversion: &[u64],
    item: &[u64; 9],
) -> Result<(), Refusal> {
    // SAFETY: see the module.
    unsafe {
        hidvorn_add(
            header.as_mut_ptr(),
            header.len(),
            names.as_mut_ptr(),
            names.len(),
            symbols.as_mut_ptr(),
            symbols.len(),
            sections.as_mut_ptr(),
            sections.len(),
            conversion.as_ptr(),
            conversion.len(),
            item.as_ptr(),
            item.len(),
        );
    }
    answer(header)
}

pub(crate) fn add_list(
    header: &mut Header,
    names: &mut [u64],
    symbols: &mut [u64],
    sections: &mut [u64],
    conversion: &[u64],
    adds: &[u64],
    ids: &mut [u64],
) -> Result<(), Refusal> {
    // SAFETY: see the module.
    unsafe {
        hidvorn_add_list(
            header.as_mut_ptr(),
            header.len(),
            names.as_mut_ptr(),
            names.len(),
            symbols.as_mut_ptr(),
            symbols.len(),
            sections.as_mut_ptr(),
            sections.len(),
            conversion.as_ptr(),
            conversion.len(),
            adds.as_ptr(),
            adds.len(),
            ids.as_mut_ptr(),
            ids.len(),
        );
    }
    answer(header)
}

pub(crate) fn remove(
    header: &mut Header,
    symbols: &mut [u64],
    sections: &mut [u64],
    id: usize,
) -> Result<(), Refusal> {
    // SAFETY: see the module.
    unsafe {
        hidvorn_remove(
            header.as_mut_ptr(),
            header.len(),
            symbols.as_mut_ptr(),
            symbols.len(),
            sections.as_mut_ptr(),
            sections.len(),
            id,
        );
    }
    answer(header)
}

pub(crate) fn get(
    header: &mut Header,
    symbols: &[u64],
    id: usize,
    out: &mut [u64; 10],
) -> Result<(), Refusal> {
    // SAFETY: see the module.
    unsafe {
        hidvorn_get(
            header.as_mut_ptr(),
            header.len(),
            symbols.as_ptr(),
            symbols.len(),
            id,
            out.as_mut_ptr(),
            out.len(),
        );
    }
    answer(header)
}

pub(crate) fn get_global(
    header: &mut Header,
    names: &[u64],
    symbols: &[u64],
    name: usize,
    out: &mut [u64; 10],
) -> Result<(), Refusal> {
    // SAFETY: see the module.
    unsafe {
        hidvorn_get_global(
            header.as_mut_ptr(),
            header.len(),
            names.as_ptr(),
            names.len(),
            symbols.as_ptr(),
            symbols.len(),
            name,
            out.as_mut_ptr(),
            out.len(),
        );
    }
    answer(header)
}

pub(crate) fn section_symbol_id(
    header: &mut Header,
    sections: &[u64],
    section: usize,
) -> Result<(), Refusal> {
    // SAFETY: see the module.
    unsafe {
        hidvorn_section_symbol_id(
            header.as_mut_ptr(),
            header.len(),
            sections.as_ptr(),
            sections.len(),
            section,
        );
    }
    answer(header)
}

#[allow(clippy::too_many_arguments)]
pub(crate) fn add_group(
    header: &mut Header,
    bytes: &mut [u8],
    names: &mut [u64],
    work: &mut [u64],
    headers: &[u64],
    entries: &[u64],
    contents: &[u64],
    file: &[u8],
    table: usize,
    section: usize,
) -> Result<(), Refusal> {
    // SAFETY: see the module.
    unsafe {
        hidvorn_add_group(
            header.as_mut_ptr(),
            header.len(),
            bytes.as_mut_ptr(),
            bytes.len(),
            names.as_mut_ptr(),
            names.len(),
            work.as_mut_ptr(),
            work.len(),
            headers.as_ptr(),
            headers.len(),
            entries.as_ptr(),
            entries.len(),
            contents.as_ptr(),
            contents.len(),
            file.as_ptr(),
            file.len(),
            table,
            section,
        );
    }
    answer(header)
}

#[allow(clippy::too_many_arguments)]
pub(crate) fn merge_elf(
    header: &mut Header,
    bytes: &mut [u8],
    names: &mut [u64],
    symbols: &mut [u64],
    sections: &mut [u64],
    inputs: &mut [u64],
    lists: &mut [u64],
    work: &mut [u64],
    ids: &mut [u64],
    headers: &[u64],
    entries: &[u64],
    contents: &[u64],
    file: &[u8],
    strings: usize,
) -> Result<(), Refusal> {
    // SAFETY: see the module.
    unsafe {
        hidvorn_merge_elf(
            header.as_mut_ptr(),
            header.len(),
            bytes.as_mut_ptr(),
            bytes.len(),
            names.as_mut_ptr(),
            names.len(),
            symbols.as_mut_ptr(),
            symbols.len(),
            sections.as_mut_ptr(),
            sections.len(),
            inputs.as_mut_ptr(),
            inputs.len(),
            lists.as_mut_ptr(),
            lists.len(),
            work.as_mut_ptr(),
            work.len(),
            ids.as_mut_ptr(),
            ids.len(),
            headers.as_ptr(),
            headers.len(),
            entries.as_ptr(),
            entries.len(),
            contents.as_ptr(),
            contents.len(),
            file.as_ptr(),
            file.len(),
            strings,
        );
    }
    answer(header)
}

#[allow(clippy::too_many_arguments)]
pub(crate) fn preview_elf(
    header: &mut Header,
    bytes: &[u8],
    names: &[u64],
    symbols: &[u64],
    sections: &[u64],
    inputs: &[u64],
    lists: &[u64],
    copy: &mut Header,
    copy_bytes: &mut [u8],
    copy_names: &mut [u64],
    copy_symbols: &mut [u64],
    copy_sections: &mut [u64],
    copy_inputs: &mut [u64],
    copy_lists: &mut [u64],
    work: &mut [u64],
    ids: &mut [u64],
    headers: &[u64],
    entries: &[u64],
    contents: &[u64],
    file: &[u8],
    strings: usize,
) -> Result<(), Refusal> {
    // SAFETY: see the module.
    unsafe {
        hidvorn_preview_elf(
            header.as_mut_ptr(),
            header.len(),
            bytes.as_ptr(),
            bytes.len(),
            names.as_ptr(),
            names.len(),
            symbols.as_ptr(),
            symbols.len(),
            sections.as_ptr(),
            sections.len(),
            inputs.as_ptr(),
            inputs.len(),
            lists.as_ptr(),
            lists.len(),
            copy.as_mut_ptr(),
            copy.len(),
            copy_bytes.as_mut_ptr(),
            copy_bytes.len(),
            copy_names.as_mut_ptr(),
            copy_names.len(),
            copy_symbols.as_mut_ptr(),
            copy_symbols.len(),
            copy_sections.as_mut_ptr(),
            copy_sections.len(),
            copy_inputs.as_mut_ptr(),
            copy_inputs.len(),
            copy_lists.as_mut_ptr(),
            copy_lists.len(),
            work.as_mut_ptr(),
            work.len(),
            ids.as_mut_ptr(),
            ids.len(),
            headers.as_ptr(),
            headers.len(),
            entries.as_ptr(),
            entries.len(),
            contents.as_ptr(),
            contents.len(),
            file.as_ptr(),
            file.len(),
            strings,
        );
    }
    answer(header)
}

/// What has to be lent for a file: a row for each section and symbol, a cell for each relocation and
/// each section number that a group lists; and the work rows of its merge.
#[derive(Clone, Copy, Debug, Default, PartialEq)]
pub(crate) struct FileRows {
    pub(crate) sections: usize,
    pub(crate) symbols: usize,
    pub(crate) relocations: usize,
    pub(crate) listed: usize,
    pub(crate) work_rows: usize,
}

impl FileRows {
    /// The cells of its rows.
    pub(crate) fn cells(self) -> usize {
        8 * (self.sections + self.symbols) + self.relocations + self.listed
    }
}

/// Counts the rows of a file.
pub(crate) fn count_file(file: &[u8]) -> Result<FileRows, Refusal> {
    let mut answer = [0; 8];
    // SAFETY: see the module.
    let number =
        unsafe { hidvorn_count_file(answer.as_mut_ptr(), answer.len(), file.as_ptr(), file.len()) };
    let [place, sections, symbols, relocations, listed, work_rows, ..] =
        answer.map(|cell| cell as usize);
    match number {
        0 => Ok(FileRows { sections, symbols, relocations, listed, work_rows }),
        number => Err(Refusal::new(cause(number), place)),
    }
}

/// Writes the rows of a file, headers, symbols, contents, one after the other, and answers the
/// section of the sections' names.
pub(crate) fn read_file(rows: &mut [u64], file: &[u8]) -> Result<usize, Refusal> {
    // The place, or how many sections, symbols and cells of contents, and the names' section.
    let mut answer = [0; 8];
    // SAFETY: see the module.
    let number = unsafe {
        hidvorn_read_file(
            answer.as_mut_ptr(),
            answer.len(),
            rows.as_mut_ptr(),
            rows.len(),
            file.as_ptr(),
            file.len(),
        )
    };
    match number {
        0 => Ok(answer[4] as usize),
        number => Err(Refusal::new(cause(number), answer[0] as usize)),
    }
}

#[allow(clippy::too_many_arguments)]
pub(crate) fn merge_file(
    header: &mut Header,
    bytes: &mut [u8],
    names: &mut [u64],
    symbols: &mut [u64],
    sections: &mut [u64],
    inputs: &mut [u64],
    lists: &mut [u64],
    work: &mut [u64],
    ids: &mut [u64],
    rows: &mut [u64],
    file: &[u8],
) -> Result<(), Refusal> {
    // SAFETY: see the module.
    unsafe {
        hidvorn_merge_file(
            header.as_mut_ptr(),
            header.len(),
            bytes.as_mut_ptr(),
            bytes.len(),
            names.as_mut_ptr(),
            names.len(),
            symbols.as_mut_ptr(),
            symbols.len(),
            sections.as_mut_ptr(),
            sections.len(),
            inputs.as_mut_ptr(),
            inputs.len(),
            lists.as_mut_ptr(),
            lists.len(),
            work.as_mut_ptr(),
            work.len(),
            ids.as_mut_ptr(),
            ids.len(),
            rows.as_mut_ptr(),
            rows.len(),
            file.as_ptr(),
            file.len(),
        );
    }
    answer(header)
}

#[allow(clippy::too_many_arguments)]
pub(crate) fn load_shared_object(
    header: &mut Header,
    bytes: &mut [u8],
    names: &mut [u64],
    symbols: &mut [u64],
    sections: &mut [u64],
    inputs: &mut [u64],
    lists: &mut [u64],
    marks: &mut [u64],
    entries: &[u64],
    file: &[u8],
    needs: &[u64],
    path: &[u8],
    archived: bool,
    sonamed: bool,
    soname: usize,
    asneeded: bool,
) -> Result<(), Refusal> {
    // SAFETY: see the module.
    unsafe {
        hidvorn_load_shared_object(
            header.as_mut_ptr(),
            header.len(),
            bytes.as_mut_ptr(),
            bytes.len(),
            names.as_mut_ptr(),
            names.len(),
            symbols.as_mut_ptr(),
            symbols.len(),
            sections.as_mut_ptr(),
            sections.len(),
            inputs.as_mut_ptr(),
            inputs.len(),
            lists.as_mut_ptr(),
            lists.len(),
            marks.as_mut_ptr(),
            marks.len(),
            entries.as_ptr(),
            entries.len(),
            file.as_ptr(),
            file.len(),
            needs.as_ptr(),
            needs.len(),
            path.as_ptr(),
            path.len(),
            archived,
            sonamed,
            soname,
            asneeded,
        );
    }
    answer(header)
}

pub(crate) fn archive_start(
    header: &mut Header,
    walk: &mut Walk,
    key: usize,
    index: &[u8],
    ends: &[u64],
    rows: &mut [u64],
) -> Result<(), Refusal> {
    // SAFETY: see the module.
    unsafe {
        hidvorn_archive_start(
            header.as_mut_ptr(),
            header.len(),
            walk.as_mut_ptr(),
            walk.len(),
            key,
            index.as_ptr(),
            index.len(),
            ends.as_ptr(),
            ends.len(),
            rows.as_mut_ptr(),
            rows.len(),
        );
    }
    answer(header)
}

#[allow(clippy::too_many_arguments)]
pub(crate) fn archive_next(
    header: &mut Header,
    walk: &mut Walk,
    index: &[u8],
    ends: &[u64],
    rows: &mut [u64],
    bytes: &[u8],
    names: &[u64],
    symbols: &[u64],
) -> Result<(), Refusal> {
    // SAFETY: see the module.
    unsafe {
        hidvorn_archive_next(
            header.as_mut_ptr(),
            header.len(),
            walk.as_mut_ptr(),
            walk.len(),
            index.as_ptr(),
            index.len(),
            ends.as_ptr(),
            ends.len(),
            rows.as_mut_ptr(),
            rows.len(),
            bytes.as_ptr(),
            bytes.len(),
            names.as_ptr(),
            names.len(),
            symbols.as_ptr(),
            symbols.len(),
        );
    }
    answer(header)
}

#[allow(clippy::too_many_arguments)]
pub(crate) fn shadowed(
    header: &mut Header,
    walk: &Walk,
    index: &[u8],
    rows: &[u64],
    bytes: &[u8],
    names: &[u64],
    symbols: &[u64],
    told: &mut [u64],
) -> Result<(), Refusal> {
    // SAFETY: see the module.
    unsafe {
        hidvorn_shadowed(
            header.as_mut_ptr(),
            header.len(),
            walk.as_ptr(),
            walk.len(),
            index.as_ptr(),
            index.len(),
            rows.as_ptr(),
            rows.len(),
            bytes.as_ptr(),
            bytes.len(),
            names.as_ptr(),
            names.len(),
            symbols.as_ptr(),
            symbols.len(),
            told.as_mut_ptr(),
            told.len(),
        );
    }
    answer(header)
}

#[allow(clippy::too_many_arguments)]
pub(crate) fn matches(
    header: &mut Header,
    walk: &Walk,
    index: &[u8],
    rows: &[u64],
    entry: usize,
    headers: &[u64],
    entries: &[u64],
    contents: &[u64],
    file: &[u8],
) -> Result<(), Refusal> {
    // SAFETY: see the module.
    unsafe {
        hidvorn_matches(
            header.as_mut_ptr(),
            header.len(),
            walk.as_ptr(),
            walk.len(),
            index.as_ptr(),
            index.len(),
            rows.as_ptr(),
            rows.len(),
            entry,
            headers.as_ptr(),
            headers.len(),
            entries.as_ptr(),
            entries.len(),
            contents.as_ptr(),
            contents.len(),
            file.as_ptr(),
            file.len(),
        );
    }
    answer(header)
}

#[allow(clippy::too_many_arguments)]
pub(crate) fn would_define(
    header: &mut Header,
    bytes: &[u8],
    names: &[u64],
    symbols: &[u64],
    headers: &[u64],
    entries: &[u64],
    contents: &[u64],
    file: &[u8],
    told: &mut [u64],
) -> Result<(), Refusal> {
    // SAFETY: see the module.
    unsafe {
        hidvorn_would_define(
            header.as_mut_ptr(),
            header.len(),
            bytes.as_ptr(),
            bytes.len(),
            names.as_ptr(),
            names.len(),
            symbols.as_ptr(),
            symbols.len(),
            headers.as_ptr(),
            headers.len(),
            entries.as_ptr(),
            entries.len(),
            contents.as_ptr(),
            contents.len(),
            file.as_ptr(),
            file.len(),
            told.as_mut_ptr(),
            told.len(),
        );
    }
    answer(header)
}

pub(crate) fn report_title(
    header: &mut Header,
    walk: &Walk,
    symbols: &[u64],
    sections: &[u64],
    report: &mut [u64],
    figures: &mut [u64],
) -> Result<(), Refusal> {
    // SAFETY: see the module.
    unsafe {
        hidvorn_report_title(
            header.as_mut_ptr(),
            header.len(),
            walk.as_ptr(),
            walk.len(),
            symbols.as_ptr(),
            symbols.len(),
            sections.as_ptr(),
            sections.len(),
            report.as_mut_ptr(),
            report.len(),
            figures.as_mut_ptr(),
            figures.len(),
        );
    }
    answer(header)
}

/// A collection, by the plain collector if it is asked for.
#[allow(clippy::too_many_arguments)]
pub(crate) fn collect(
    plain: bool,
    header: &mut Header,
    bytes: &[u8],
    names: &[u64],
    symbols: &mut [u64],
    sections: &mut [u64],
    lists: &[u64],
    marks: &[u8],
    entered: bool,
    entry: usize,
    work: &mut [u64],
) -> Result<(), Refusal> {
    let run = if plain { hidvorn_plain_run } else { hidvorn_gc_run };
    // SAFETY: see the module.
    unsafe {
        run(
            header.as_mut_ptr(),
            header.len(),
            bytes.as_ptr(),
            bytes.len(),
            names.as_ptr(),
            names.len(),
            symbols.as_mut_ptr(),
            symbols.len(),
            sections.as_mut_ptr(),
            sections.len(),
            lists.as_ptr(),
            lists.len(),
            marks.as_ptr(),
            marks.len(),
            entered,
            entry,
            work.as_mut_ptr(),
            work.len(),
        );
    }
    answer(header)
}
