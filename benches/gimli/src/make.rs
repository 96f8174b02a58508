//! Units that are generated, as those of `dwarf_build make`.

use crate::write;
use gimli::constants::*;
use gimli::write::{AttributeValue, Dwarf, LineProgram, Reference, Unit, UnitEntryId, UnitId};
use gimli::{Encoding, Format};

/// The most variables that a unit holds.
const UNIT_VARIABLES: usize = 1000;

fn set(unit: &mut Unit, entry: UnitEntryId, name: DwAt, value: AttributeValue) {
    unit.get_mut(entry).set(name, value);
}

fn first_root(dwarf: &Dwarf) -> Reference {
    let id: UnitId = dwarf.units.id(0);
    Reference::Entry(id, dwarf.units.get(id).root())
}

fn add_unit(dwarf: &mut Dwarf, from: usize, count: usize) {
    let encoding = Encoding { address_size: 8, format: Format::Dwarf32, version: 5 };
    let id = dwarf.units.add(Unit::new(encoding, LineProgram::none()));
    let first = first_root(dwarf);
    let unit = dwarf.units.get_mut(id);
    let root = unit.root();
    // It is written first in either place, and gimli 0.27 reserves no entry.
    let base_type = unit.add(root, DW_TAG_base_type);
    set(unit, base_type, DW_AT_byte_size, AttributeValue::Data1(4));
    for number in from..from + count {
        let variable = unit.add(root, DW_TAG_variable);
        set(unit, variable, DW_AT_byte_size, AttributeValue::Udata(number as u64));
        set(unit, variable, DW_AT_type, AttributeValue::UnitRef(base_type));
        if number % 100 == 0 {
            set(unit, variable, DW_AT_specification, AttributeValue::DebugInfoRef(first));
        }
    }
}

/// Generates so many variables, writes them, and tells what was written.
pub fn summary(count: usize) -> String {
    let mut dwarf = Dwarf::new();
    for index in 0..count / UNIT_VARIABLES + 1 {
        let from = index * UNIT_VARIABLES;
        add_unit(&mut dwarf, from, UNIT_VARIABLES.min(count - from));
    }
    let units = dwarf.units.count();
    let entries = (0..units).map(|unit| dwarf.units.get(dwarf.units.id(unit)).count());
    let entries: usize = entries.sum();
    let sections = write(dwarf);
    let info = sections.debug_info.slice();
    let sum: u64 = info.iter().map(|byte| u64::from(*byte)).sum();
    let abbrevs = sections.debug_abbrev.slice();
    let (info, abbrevs) = (info.len(), abbrevs.len());
    format!("units {units} entries {entries} info {info} abbrev {abbrevs} sum {sum}\n")
}
