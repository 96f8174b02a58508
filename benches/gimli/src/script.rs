//! Scripts, as far as benches/mixed_script.sh and benches/large_script.sh go.

use crate::listing::bytes_of;
use gimli::constants::*;
use gimli::write::*;
use gimli::{Encoding, Format, LineEncoding, Register};

/// The fields of a line.
type Fields<'a> = std::str::Split<'a, char>;

/// What the lines so far have built, and the numbers under which they name it.
#[derive(Default)]
struct Script {
    dwarf: Dwarf,
    strings: Vec<StringId>,
    line_strings: Vec<LineStringId>,
    units: Vec<Numbers>,
}

struct Numbers {
    unit: UnitId,
    entries: Vec<UnitEntryId>,
    ranges: Vec<RangeListId>,
    locations: Vec<LocationListId>,
    directory: Option<LineString>,
    files: Vec<FileId>,
}

fn field<'a>(fields: &mut Fields<'a>) -> &'a str {
    fields.next().expect("a field")
}

fn number(fields: &mut Fields) -> u64 {
    let text = field(fields);
    match text.strip_prefix("0x") {
        Some(digits) => u64::from_str_radix(digits, 16),
        None => text.parse(),
    }
    .expect("a number")
}

fn index(fields: &mut Fields) -> usize {
    number(fields) as usize
}

fn signed(fields: &mut Fields) -> i64 {
    field(fields).parse().expect("a number with a sign")
}

fn address(fields: &mut Fields) -> Address {
    Address::Constant(number(fields))
}

fn tag(fields: &mut Fields) -> DwTag {
    match field(fields) {
        "DW_TAG_base_type" => DW_TAG_base_type,
        "DW_TAG_formal_parameter" => DW_TAG_formal_parameter,
        "DW_TAG_lexical_block" => DW_TAG_lexical_block,
        "DW_TAG_member" => DW_TAG_member,
        "DW_TAG_pointer_type" => DW_TAG_pointer_type,
        "DW_TAG_structure_type" => DW_TAG_structure_type,
        "DW_TAG_subprogram" => DW_TAG_subprogram,
        "DW_TAG_variable" => DW_TAG_variable,
        other => panic!("unknown tag {other}"),
    }
}

fn name(fields: &mut Fields) -> DwAt {
    match field(fields) {
        "DW_AT_byte_size" => DW_AT_byte_size,
        "DW_AT_comp_dir" => DW_AT_comp_dir,
        "DW_AT_data_member_location" => DW_AT_data_member_location,
        "DW_AT_decl_file" => DW_AT_decl_file,
        "DW_AT_decl_line" => DW_AT_decl_line,
        "DW_AT_encoding" => DW_AT_encoding,
        "DW_AT_external" => DW_AT_external,
        "DW_AT_frame_base" => DW_AT_frame_base,
        "DW_AT_high_pc" => DW_AT_high_pc,
        "DW_AT_language" => DW_AT_language,
        "DW_AT_location" => DW_AT_location,
        "DW_AT_low_pc" => DW_AT_low_pc,
        "DW_AT_name" => DW_AT_name,
        "DW_AT_producer" => DW_AT_producer,
        "DW_AT_ranges" => DW_AT_ranges,
        "DW_AT_specification" => DW_AT_specification,
        "DW_AT_type" => DW_AT_type,
        other => panic!("unknown attribute {other}"),
    }
}

impl Script {
    fn unit(&mut self, number: usize) -> (&mut Unit, &mut Numbers) {
        let numbers = &mut self.units[number];
        (self.dwarf.units.get_mut(numbers.unit), numbers)
    }

    fn entry(&self, fields: &mut Fields) -> Reference {
        let (unit, entry) = field(fields).split_once(':').expect("U:E");
        let unit = &self.units[unit.parse::<usize>().expect("U")];
        Reference::Entry(unit.unit, unit.entries[entry.parse::<usize>().expect("E")])
    }

    fn line_string(&self, fields: &mut Fields) -> LineString {
        match field(fields) {
            "text" => LineString::String(bytes_of(field(fields))),
            "line_str" => LineString::LineStringRef(self.line_strings[index(fields)]),
            other => panic!("unknown word {other}"),
        }
    }

    /// The operations up to the `]`, whose `[` is the next field.
    fn expression(&self, unit: &Numbers, fields: &mut Fields) -> Expression {
        let mut made = Expression::new();
        assert_eq!(field(fields), "[");
        loop {
            match field(fields) {
                "addr" => made.op_addr(address(fields)),
                "breg" => made.op_breg(Register(index(fields) as u16), signed(fields)),
                "deref_type" => {
                    let size = index(fields) as u8;
                    made.op_deref_type(size, unit.entries[index(fields)]);
                }
                "entry_value" => made.op_entry_value(self.expression(unit, fields)),
                "fbreg" => made.op_fbreg(signed(fields)),
                "op" => match field(fields) {
                    "DW_OP_call_frame_cfa" => made.op(DW_OP_call_frame_cfa),
                    "DW_OP_stack_value" => made.op(DW_OP_stack_value),
                    other => panic!("unknown opcode {other}"),
                },
                "reg" => made.op_reg(Register(index(fields) as u16)),
                "]" => return made,
                other => panic!("unknown operation {other}"),
            }
        }
    }

    fn value(&self, unit: &Numbers, fields: &mut Fields) -> AttributeValue {
        match field(fields) {
            "address" => AttributeValue::Address(address(fields)),
            "data1" => AttributeValue::Data1(number(fields) as u8),
            "data2" => AttributeValue::Data2(number(fields) as u16),
            "data8" => AttributeValue::Data8(number(fields)),
            "encoding" => AttributeValue::Encoding(DwAte(number(fields) as u8)),
            "exprloc" => AttributeValue::Exprloc(self.expression(unit, fields)),
            "file_index" => AttributeValue::FileIndex(Some(unit.files[index(fields)])),
            "flag_present" => AttributeValue::FlagPresent,
            "info_ref" => AttributeValue::DebugInfoRef(self.entry(fields)),
            "language" => AttributeValue::Language(DwLang(number(fields) as u16)),
            "line_str_ref" => AttributeValue::LineStringRef(self.line_strings[index(fields)]),
            "loc_ref" => AttributeValue::LocationListRef(unit.locations[index(fields)]),
            "range_ref" => AttributeValue::RangeListRef(unit.ranges[index(fields)]),
            "str_ref" => AttributeValue::StringRef(self.strings[index(fields)]),
            "string" => AttributeValue::String(bytes_of(field(fields))),
            "udata" => AttributeValue::Udata(number(fields)),
            "unit_ref" => AttributeValue::UnitRef(unit.entries[index(fields)]),
            other => panic!("unknown kind {other}"),
        }
    }

    fn add_unit(&mut self, fields: &mut Fields) {
        let version = number(fields) as u16;
        let address_size = number(fields) as u8;
        let format = if number(fields) == 32 { Format::Dwarf32 } else { Format::Dwarf64 };
        let encoding = Encoding { address_size, format, version };
        let unit = self.dwarf.units.add(Unit::new(encoding, LineProgram::none()));
        let entries = vec![self.dwarf.units.get(unit).root()];
        let (ranges, locations, files) = (Vec::new(), Vec::new(), Vec::new());
        let numbers = Numbers { unit, entries, ranges, locations, directory: None, files };
        self.units.push(numbers);
    }

    fn set(&mut self, fields: &mut Fields) {
        let unit = index(fields);
        let entry = index(fields);
        let name = name(fields);
        let value = self.value(&self.units[unit], fields);
        let (unit, numbers) = self.unit(unit);
        unit.get_mut(numbers.entries[entry]).set(name, value);
    }

    fn range_list(&mut self, fields: &mut Fields) {
        let number = index(fields);
        let mut list = Vec::new();
        while let Some(word) = fields.next() {
            assert_eq!(word, "ends");
            list.push(Range::StartEnd { begin: address(fields), end: address(fields) });
        }
        let (unit, numbers) = self.unit(number);
        numbers.ranges.push(unit.ranges.add(RangeList(list)));
    }

    fn location_list(&mut self, fields: &mut Fields) {
        let number = index(fields);
        let mut list = Vec::new();
        while let Some(word) = fields.next() {
            assert_eq!(word, "ends");
            let (begin, end) = (address(fields), address(fields));
            let data = self.expression(&self.units[number], fields);
            list.push(Location::StartEnd { begin, end, data });
        }
        let (unit, numbers) = self.unit(number);
        numbers.locations.push(unit.locations.add(LocationList(list)));
    }

    /// A line program is made with its first file, as gimli 0.27 asks for it.
    fn line_program(&mut self, fields: &mut Fields) {
        let number = index(fields);
        self.units[number].directory = Some(self.line_string(fields));
    }

    fn file(&mut self, fields: &mut Fields) {
        let number = index(fields);
        let name = self.line_string(fields);
        assert_eq!(field(fields), "0");
        let (unit, numbers) = self.unit(number);
        if let Some(directory) = numbers.directory.take() {
            let lines = LineEncoding::default();
            unit.line_program =
                LineProgram::new(unit.encoding(), lines, directory, name.clone(), None);
        }
        let directory = unit.line_program.default_directory();
        numbers.files.push(unit.line_program.add_file(name, directory, None));
    }

    fn row(&mut self, fields: &mut Fields) {
        let (unit, numbers) = self.unit(index(fields));
        let row = unit.line_program.row();
        row.address_offset = number(fields);
        row.file = numbers.files[index(fields)];
        row.line = number(fields);
        row.column = number(fields);
        unit.line_program.generate_row();
    }

    fn line(&mut self, fields: &mut Fields) {
        match field(fields) {
            "unit" => self.add_unit(fields),
            "str" => self.strings.push(self.dwarf.strings.add(bytes_of(field(fields)))),
            "line_str" => {
                self.line_strings.push(self.dwarf.line_strings.add(bytes_of(field(fields))));
            }
            "add" => {
                let (unit, numbers) = self.unit(index(fields));
                let parent = numbers.entries[index(fields)];
                numbers.entries.push(unit.add(parent, tag(fields)));
            }
            "sibling" => {
                let (unit, numbers) = self.unit(index(fields));
                let entry = numbers.entries[index(fields)];
                unit.get_mut(entry).set_sibling(number(fields) == 1);
            }
            "set" => self.set(fields),
            "range" => self.range_list(fields),
            "loc" => self.location_list(fields),
            "line" => self.line_program(fields),
            "file" => self.file(fields),
            "sequence" => {
                let (unit, _) = self.unit(index(fields));
                unit.line_program.begin_sequence(Some(address(fields)));
            }
            "row" => self.row(fields),
            "end" => {
                let (unit, _) = self.unit(index(fields));
                unit.line_program.end_sequence(number(fields));
            }
            other => panic!("unknown line {other}"),
        }
    }
}

/// What a script builds.
pub fn dwarf(text: &str) -> Dwarf {
    let mut script = Script::default();
    for line in text.lines() {
        script.line(&mut line.split(' '));
    }
    script.dwarf
}
