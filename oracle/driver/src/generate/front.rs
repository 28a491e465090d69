//! Symbol rows in front of an object's own, so that its tables don't begin at the first row.
use super::objects::offset;
use super::random::Random;
use crate::rows::{ABSOLUTE, ObjectRows, SectionRow, SymbolRow};

/// One to three good rows, with every table's first moved up. At times an excluded table has them:
/// no merge sees it, admission does.
pub(crate) fn rows(random: &mut Random, rows: &mut ObjectRows) {
    let is_table = |row: &SectionRow| matches!(row.kind, 3 | 10);
    let Some(strings) = rows.sections.iter().find(|row| is_table(row)).map(|row| row.link) else {
        return;
    };
    let more = random.between(1, 3);
    for _ in 0..more {
        let name = random.pick(&["", "a", "c", "mute", "front"]);
        let name = match rows.sections.get_mut(strings as usize) {
            Some(row) if row.kind == 4 => offset(&mut row.bytes, name),
            _ => 0,
        };
        let (binding, section) =
            random.pick(&[(0, ABSOLUTE), (1, 0), (1, ABSOLUTE), (2, 0), (2, ABSOLUTE)]);
        let (kind, value) = (random.below(3), random.value());
        let visibility = if binding == 0 { 0 } else { random.hidden() };
        let row = SymbolRow { name, binding, kind, visibility, section, value, size: 0 };
        rows.symbols.insert(0, row);
    }
    for table in rows.sections.iter_mut().filter(|row| is_table(row)) {
        table.items[0] += more;
    }
    if random.chance(40) {
        let kind = random.pick(&[3, 10]);
        let (link, items) = (strings, vec![0, more]);
        let table = SectionRow { kind, exclude: true, link, items, ..SectionRow::default() };
        rows.sections.push(table);
    }
}
