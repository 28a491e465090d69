//! Random objects: well-formed ones by a plan.
use super::random::Random;
use crate::rows::{ABSOLUTE, ObjectRows, SectionRow, SymbolRow};

/// How many of each thing, from and to.
#[derive(Clone)]
pub(crate) struct Plan {
    pub(crate) programs: (u64, u64),
    pub(crate) uninitialized: (u64, u64),
    pub(crate) others: (u64, u64),
    pub(crate) relocations: (u64, u64),
    pub(crate) groups: (u64, u64),
    pub(crate) symbols: (u64, u64),
    /// Names that this object may define strongly; all names may be referred to or weak.
    pub(crate) strong: Vec<String>,
    pub(crate) names: Vec<String>,
}

pub(crate) const SIGNATURES: [&str; 3] = ["g1", "g2", "g3"];
const SECTION_NAMES: [&str; 7] = [".text", ".data", ".bss", ".eh_frame", ".text.x", "x", ""];

/// The offset of a name in a table of zero-ended names; it is added if it isn't there. A name that
/// another one ends with is found in its middle.
pub(crate) fn offset(bytes: &mut Vec<u8>, name: &str) -> u64 {
    let wanted = [name.as_bytes(), &[0]].concat();
    match bytes.windows(wanted.len()).position(|part| part == wanted) {
        Some(at) => at as u64,
        None => {
            bytes.extend(wanted);
            (bytes.len() - name.len() - 1) as u64
        }
    }
}

struct Maker<'a> {
    random: &'a mut Random,
    plan: &'a Plan,
    rows: ObjectRows,
    symbol_strings: u64,
    section_strings: u64,
    /// Sections that groups list: no local symbol goes there.
    grouped: Vec<u64>,
}

pub(crate) fn object(random: &mut Random, plan: &Plan) -> ObjectRows {
    let mut kinds = Vec::new();
    // The Rust takes groups of one section alone.
    let more = if random.commons { 2 } else { 0 };
    let up_to = |range: (u64, u64)| (range.0, range.1 + more);
    let mut put = |random: &mut Random, range: (u64, u64), choice: &[u64]| {
        for _ in 0..random.between(range.0, range.1) {
            kinds.push(random.pick(choice));
        }
    };
    put(random, up_to(plan.programs), &[1]);
    put(random, plan.uninitialized, &[2]);
    put(random, plan.others, &[0, 8, 9, 14]);
    put(random, up_to(plan.relocations), &[5, 6]);
    put(random, up_to(plan.groups), &[7]);
    put(random, (1, 2), &[4]);
    let table = !random.chance(4);
    put(random, (table as u64, table as u64), &[3]);
    random.shuffle(&mut kinds);
    kinds.insert(0, 0);

    let row = |kind| SectionRow { kind, ..SectionRow::default() };
    let rows = ObjectRows { sections: kinds.into_iter().map(row).collect(), ..Default::default() };
    let mut maker =
        Maker { random, plan, rows, symbol_strings: 0, section_strings: 0, grouped: Vec::new() };
    maker.fill();
    maker.rows
}

impl Maker<'_> {
    fn of_kind(&self, kinds: &[u64]) -> Vec<u64> {
        let sections = self.rows.sections.iter().enumerate();
        sections
            .filter(|(_, row)| kinds.contains(&row.kind) && !row.exclude)
            .map(|(number, _)| number as u64)
            .collect()
    }

    fn section(&mut self, number: u64) -> &mut SectionRow {
        &mut self.rows.sections[number as usize]
    }

    /// The offset of a name in the string section of that number.
    fn name(&mut self, strings: u64, name: &str) -> u64 {
        offset(&mut self.section(strings).bytes, name)
    }

    fn fill(&mut self) {
        let strings = self.of_kind(&[4]);
        self.symbol_strings = self.random.pick(&strings);
        self.section_strings = self.random.pick(&strings);
        self.rows.names = self.section_strings;
        for number in strings {
            self.section(number).bytes = vec![0];
        }
        for number in self.of_kind(&[1, 2, 8, 14]) {
            let row = &mut self.rows.sections[number as usize];
            row.exclude = self.random.chance(8);
            row.retain = self.random.chance(10);
            row.read = self.random.chance(80);
            let name = self.random.pick(&SECTION_NAMES);
            self.section(number).name = self.name(self.section_strings, name);
        }
        self.groups();
        self.symbols();
        self.relocations();
        for table in self.of_kind(&[3]) {
            let count = self.rows.symbols.len() as u64;
            self.section(table).link = self.symbol_strings;
            self.section(table).items = vec![0, count];
        }
    }

    /// Each group is signed by a global or weak symbol in the first section that it lists.
    fn groups(&mut self) {
        if !self.random.chance(6) {
            // Its visibility doesn't count.
            let visibility = self.random.hidden();
            self.rows.symbols.push(SymbolRow { visibility, ..SymbolRow::default() });
        }
        let table = self.of_kind(&[3]);
        for group in self.of_kind(&[7]) {
            if self.random.chance(10) {
                self.section(group).exclude = true;
                continue;
            }
            let listed = table.first().and_then(|table| Some((*table, self.listed()?)));
            let Some((table, listed)) = listed else {
                // Nothing to list, or nothing to be signed by: no group after all.
                self.section(group).kind = 8;
                continue;
            };
            let first = listed[0];
            let signature = self.random.pick(&SIGNATURES);
            let name = self.name(self.symbol_strings, signature);
            let number = self.rows.symbols.len() as u64;
            let mut binding = self.random.pick(&[1, 2, 2]);
            if self.random.gabi && self.random.chance(10) {
                binding = 0;
            }
            let symbol = SymbolRow {
                name,
                binding,
                kind: 2,
                section: self.random.pick(&[first, first, 0]),
                visibility: if binding == 0 { 0 } else { self.random.hidden() },
                ..SymbolRow::default()
            };
            self.rows.symbols.push(symbol);
            let row = self.section(group);
            (row.link, row.info, row.comdat) = (table, number, true);
            row.items.clone_from(&listed);
            self.grouped.extend(listed);
        }
        if self.random.commons && self.random.chance(5) {
            let grouped = self.grouped.clone();
            if let (Some(first), false) = (self.rows.symbols.first_mut(), grouped.is_empty()) {
                first.section = self.random.pick(&grouped);
            }
        }
        if self.random.commons {
            for group in self.of_kind(&[7]) {
                let mut items = std::mem::take(&mut self.section(group).items);
                self.random.shuffle(&mut items);
                self.section(group).items = items;
            }
        }
    }

    /// What a group lists: a program section that no group before it does; where the Rust isn't asked
    /// up to four numbers more, at times one of the same group or of an earlier one, of a section that
    /// isn't loaded, or of none.
    fn listed(&mut self) -> Option<Vec<u64>> {
        let mut free = self.of_kind(&[1, 2]);
        free.retain(|number| !self.grouped.contains(number));
        if free.is_empty() {
            return None;
        }
        let mut listed = vec![self.random.pick(&free)];
        if !self.random.commons {
            return Some(listed);
        }
        let tables = self.of_kind(&[5, 6]);
        let sections = self.rows.sections.len() as u64;
        for _ in 0..self.random.pick(&[0, 1, 1, 2, 2, 3, 4]) {
            let number = match self.random.below(16) {
                0 => self.random.pick(&listed),
                1 => self.random.below(sections + 3),
                2 | 3 if !tables.is_empty() => self.random.pick(&tables),
                4 if !self.grouped.is_empty() => {
                    listed.push(self.random.pick(&self.grouped));
                    continue;
                }
                _ => self.random.pick(&free),
            };
            if !self.grouped.contains(&number) {
                listed.push(number);
            }
        }
        Some(listed)
    }

    fn symbols(&mut self) {
        let built = self.of_kind(&[1, 2]);
        let mut free = built.clone();
        // What becomes of a local of a removed section is the gABI profile's matter.
        let percent = if self.random.gabi { 60 } else { 8 };
        if !self.random.commons || !self.random.chance(percent) {
            free.retain(|number| !self.grouped.contains(number));
        }
        let unloaded = self.of_kind(&[3, 4, 5, 6, 8, 9, 14]);
        let groups = self.of_kind(&[7]);
        for _ in 0..self.random.between(self.plan.symbols.0, self.plan.symbols.1) {
            let value = self.random.value();
            let kind = self.random.below(4);
            let hidden = self.random.visibility(&[0, 0, 0, 0, 0, 2]);
            let any = self.random.pick(&self.plan.names);
            let (name, binding, kind, visibility, section, value) = match self.random.below(20) {
                0 | 1 => {
                    // Nothing but its name counts, wherever it lies.
                    let any_section = self.random.below(self.rows.sections.len() as u64 + 1);
                    let odd = self.random.chance(25);
                    let mut section = if odd { any_section } else { ABSOLUTE };
                    if self.random.gabi && !self.grouped.is_empty() && self.random.chance(40) {
                        section = self.random.pick(&self.grouped);
                    }
                    let binding = if odd { self.random.pick(&[1, 2, 3]) } else { 0 };
                    let visibility = if odd { self.random.below(4) } else { 0 };
                    let name = self.random.pick(&["one.c", "two.c", ""]);
                    (name.into(), binding, 4, visibility, section, 0)
                }
                2 | 3 if !free.is_empty() => (String::new(), 0, 3, 0, self.random.pick(&free), 0),
                4 if !free.is_empty() => (any, 0, kind, 0, self.random.pick(&free), value),
                5..9 => (any, 1, kind, hidden, 0, 0),
                9 | 10 => (any, 2, kind, hidden, 0, 0),
                11..14 if !built.is_empty() => {
                    (any, 2, kind, hidden, self.random.pick(&built), value)
                }
                14 => (any, 2, kind, hidden, ABSOLUTE, value),
                15 if !unloaded.is_empty() => {
                    (any, self.random.pick(&[0, 2]), kind, 0, self.random.pick(&unloaded), value)
                }
                16 if !groups.is_empty() => (String::new(), 0, 3, 0, self.random.pick(&groups), 0),
                17 if self.random.chance(50) => (String::new(), 0, 0, 0, 0, 0),
                17 => (any, 0, kind, 0, 0, 0),
                _ if !built.is_empty() => {
                    let name = if self.random.chance(10) {
                        any
                    } else {
                        self.random.pick(&self.plan.strong)
                    };
                    (name, 1, kind, hidden, self.random.pick(&built), value)
                }
                _ => (any, 2, kind, 0, 0, 0),
            };
            let mut name = self.name(self.symbol_strings, &name);
            if self.random.gabi && self.grouped.contains(&section) && self.random.chance(8) {
                name += 10_000;
            }
            let row = SymbolRow { name, binding, kind, visibility, section, value, size: 0 };
            self.rows.symbols.push(row);
        }
    }

    fn relocations(&mut self) {
        let (programs, tables) = (self.of_kind(&[1]), self.of_kind(&[3]));
        let groups = self.of_kind(&[7]);
        let symbols = self.rows.symbols.iter().enumerate();
        let with_id: Vec<_> = symbols
            .filter(|(_, row)| row.kind != 4 && !groups.contains(&row.section))
            .map(|(number, _)| number as u64)
            .collect();
        for number in self.of_kind(&[5, 6]) {
            let mut target = self.random.below(self.rows.sections.len() as u64 + 1);
            if !programs.is_empty() && self.random.chance(75) {
                target = self.random.pick(&programs);
            }
            let mut items = Vec::new();
            if !with_id.is_empty() && !tables.is_empty() {
                for _ in 0..self.random.below(4) {
                    items.push(self.random.pick(&with_id));
                }
            }
            let row = self.section(number);
            (row.link, row.info, row.items) = (tables.first().copied().unwrap_or(0), target, items);
        }
    }
}
