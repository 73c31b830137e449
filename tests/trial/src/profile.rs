//! The depot's profile as the generator needs it: listed fields and leaves with types, limits and lists.
//! Written from document 01 alone, apart from both programs compared.

use Simple::{Code, Dtm, Long, Nm, Short, Si, Tm};

#[derive(Clone, Copy, PartialEq, Eq, Debug)]
pub enum Simple {
    Si,
    Nm,
    Dtm,
    Tm,
    Code,
    Short,
    Long,
}

#[derive(Clone, Copy)]
pub struct Leaf {
    pub component: usize,
    pub subcomponent: usize,
    pub simple: Simple,
    pub starred: bool,
}

#[derive(Clone, Copy)]
pub struct Field {
    pub name: &'static str,
    pub number: usize,
    /// The type; `*` is the one that OBX-2 names.
    pub kind: &'static str,
    pub required: bool,
    pub most: usize,
}

const fn must(name: &'static str, number: usize, kind: &'static str, most: usize) -> Field {
    Field { name, number, kind, required: true, most }
}

const fn may(name: &'static str, number: usize, kind: &'static str, most: usize) -> Field {
    Field { name, number, kind, required: false, most }
}

pub static FIELDS: &[Field] = &[
    may("MSH", 3, "HD", 1),
    must("MSH", 4, "HD", 1),
    may("MSH", 5, "HD", 1),
    may("MSH", 6, "HD", 1),
    must("MSH", 7, "TS", 1),
    must("MSH", 9, "MSG", 1),
    must("MSH", 10, "ST", 1),
    must("MSH", 11, "PT", 1),
    must("MSH", 12, "VID", 1),
    may("PID", 1, "SI", 1),
    must("PID", 3, "CX", 5),
    must("PID", 5, "XPN", 2),
    must("PID", 7, "TS", 1),
    may("PID", 8, "IS", 1),
    may("PID", 24, "ID", 1),
    may("PID", 25, "NM", 1),
    must("NK1", 1, "SI", 1),
    may("NK1", 2, "XPN", 2),
    must("NK1", 3, "CE", 1),
    must("ORC", 1, "ID", 1),
    may("ORC", 2, "EI", 1),
    may("ORC", 3, "EI", 1),
    must("OBR", 1, "SI", 1),
    may("OBR", 2, "EI", 1),
    must("OBR", 3, "EI", 1),
    must("OBR", 4, "CE", 1),
    must("OBR", 7, "TS", 1),
    may("OBR", 25, "ID", 1),
    must("OBX", 1, "SI", 1),
    may("OBX", 2, "ID", 1),
    must("OBX", 3, "CE", 1),
    may("OBX", 4, "ST", 1),
    may("OBX", 5, "*", 1),
    may("OBX", 6, "CE", 1),
    may("OBX", 7, "ST", 1),
    may("OBX", 8, "IS", 5),
    must("OBX", 11, "ID", 1),
    may("OBX", 14, "TS", 1),
    may("NTE", 1, "SI", 1),
    may("NTE", 2, "ID", 1),
    may("NTE", 3, "FT", 8),
];

const fn leaf(component: usize, subcomponent: usize, simple: Simple) -> Leaf {
    Leaf { component, subcomponent, simple, starred: false }
}

const fn star(component: usize, simple: Simple) -> Leaf {
    Leaf { component, subcomponent: 1, simple, starred: true }
}

/// The leaves of an ST, and of OBX-5 where OBX-2 names no type.
const ST: &[Leaf] = &[leaf(1, 1, Short)];

static KINDS: &[(&str, &[Leaf])] = &[
    ("HD", &[leaf(1, 1, Code), leaf(2, 1, Short), leaf(3, 1, Code)]),
    ("TS", &[star(1, Dtm)]),
    ("MSG", &[star(1, Code), star(2, Code), leaf(3, 1, Code)]),
    ("PT", &[star(1, Code)]),
    ("VID", &[star(1, Code)]),
    ("CX", &[star(1, Short), leaf(4, 1, Code), leaf(4, 2, Short), leaf(4, 3, Code), leaf(5, 1, Code)]),
    ("XPN", &[leaf(1, 1, Short), leaf(2, 1, Short), leaf(3, 1, Short), leaf(7, 1, Code)]),
    ("EI", &[star(1, Short), leaf(2, 1, Code), leaf(3, 1, Short), leaf(4, 1, Code)]),
    (
        "CE",
        &[star(1, Short), leaf(2, 1, Short), leaf(3, 1, Code), leaf(4, 1, Short), leaf(5, 1, Short), leaf(6, 1, Code)],
    ),
    ("SN", &[leaf(1, 1, Short), leaf(2, 1, Nm), leaf(3, 1, Short), leaf(4, 1, Nm)]),
    ("SI", &[leaf(1, 1, Si)]),
    ("ID", &[leaf(1, 1, Code)]),
    ("IS", &[leaf(1, 1, Code)]),
    ("NM", &[leaf(1, 1, Nm)]),
    ("DTM", &[leaf(1, 1, Dtm)]),
    ("TM", &[leaf(1, 1, Tm)]),
    ("FT", &[leaf(1, 1, Long)]),
    ("TX", &[leaf(1, 1, Long)]),
    ("ST", ST),
];

/// The listed leaves of a type, rising; those of an ST where there is no such type.
pub fn leaves(kind: &str) -> &'static [Leaf] {
    KINDS.iter().find(|row| row.0 == kind).map_or(ST, |row| row.1)
}

/// The longest that a leaf may be once its escapes are resolved.
pub fn limit(field: &Field, simple: Simple) -> usize {
    match (field.name, field.number, simple) {
        ("MSH", 10, _) | ("OBX", 4, _) => 20,
        ("OBX", 2, _) => 3,
        ("OBX", 7, _) => 60,
        _ => type_limit(simple),
    }
}

/// The same where the field has no limit of its own.
pub fn type_limit(simple: Simple) -> usize {
    match simple {
        Si => 4,
        Code => 20,
        Nm | Tm => 16,
        Dtm => 24,
        Short => 199,
        Long => 4_096,
    }
}

pub static TYPES: &[&str] = &["CE", "DTM", "FT", "NM", "SN", "ST", "TM", "TX"];

/// The fields with a leaf of type DTM; OBX-5 is one where OBX-2 names that type.
pub static DATED: &[(&str, usize)] = &[("MSH", 7), ("PID", 7), ("OBR", 7), ("OBX", 5), ("OBX", 14)];

/// The codes allowed at a leaf; none where any text is.
pub fn list(name: &str, number: usize, component: usize) -> &'static [&'static str] {
    match (name, number, component) {
        ("MSH", 9, 1) => &["ORU"],
        ("MSH", 9, 2) => &["R01"],
        ("MSH", 11, 1) => &["D", "P", "T"],
        ("MSH", 12, 1) => &["2.5.1"],
        ("PID", 8, 1) => &["A", "F", "M", "N", "O", "U"],
        ("PID", 24, 1) => &["Y", "N"],
        ("ORC", 1, 1) => &["RE"],
        ("OBR", 25, 1) => &["A", "C", "F", "I", "O", "P", "R", "S", "X", "Y", "Z"],
        ("OBX", 2, 1) => TYPES,
        ("OBX", 11, 1) => &["C", "D", "F", "I", "N", "O", "P", "R", "S", "U", "W", "X"],
        _ => &[],
    }
}

pub static NAMES: &[&str] = &["MSH", "PID", "NK1", "ORC", "OBR", "OBX", "NTE"];

/// The listed fields of a segment; none where the segment is not listed.
pub fn fields_of(name: &[u8]) -> &'static [Field] {
    let fits = |field: &Field| field.name.as_bytes() == name;
    let start = FIELDS.iter().position(fits).unwrap_or(0);
    let count = FIELDS[start..].iter().take_while(|field| fits(field)).count();
    &FIELDS[start..start + count]
}

/// Whether a leaf is listed, where `kind` is the type that OBX-5 has there.
pub fn is_listed(name: &[u8], number: u64, component: u64, subcomponent: u64, kind: &str) -> bool {
    let fits = |leaf: &Leaf| (leaf.component as u64, leaf.subcomponent as u64) == (component, subcomponent);
    let found = FIELDS.iter().find(|field| field.name.as_bytes() == name && field.number as u64 == number);
    match found {
        Some(field) if field.kind == "*" => leaves(kind).iter().any(fits),
        Some(field) => leaves(field.kind).iter().any(fits),
        None => false,
    }
}

#[cfg(test)]
mod tests {
    use super::*;

    #[test]
    fn fields_rise_within_a_segment() {
        assert_eq!(FIELDS.len(), 41);
        for pair in FIELDS.windows(2) {
            assert!(pair[0].name != pair[1].name || pair[0].number < pair[1].number);
        }
    }

    #[test]
    fn fields_are_found_by_their_segment() {
        let numbers = |name: &[u8]| fields_of(name).iter().map(|field| field.number).collect::<Vec<usize>>();
        assert_eq!(numbers(b"NTE"), [1, 2, 3]);
        assert_eq!(numbers(b"ORC"), [1, 2, 3]);
        assert_eq!(numbers(b"ZZX"), []);
    }

    #[test]
    fn an_unknown_type_is_a_short_text() {
        assert!(FIELDS.iter().all(|field| field.kind == "*" || KINDS.iter().any(|row| row.0 == field.kind)));
        assert_eq!(leaves("*").len(), 1);
        assert_eq!(leaves("*")[0].simple, Short);
    }

    #[test]
    fn fields_with_a_date_are_all_named() {
        let has_date = |field: &&Field| field.kind == "*" || leaves(field.kind).iter().any(|leaf| leaf.simple == Dtm);
        let found: Vec<(&str, usize)> =
            FIELDS.iter().filter(has_date).map(|field| (field.name, field.number)).collect();
        assert_eq!(found, DATED);
    }

    #[test]
    fn codes_keep_to_their_limit() {
        for field in FIELDS {
            for leaf in leaves(field.kind) {
                for code in list(field.name, field.number, leaf.component) {
                    assert!(code.len() <= limit(field, leaf.simple));
                }
            }
        }
    }

    #[test]
    fn listed_places_are_told_from_others() {
        assert!(is_listed(b"PID", 3, 4, 3, "ST"));
        assert!(!is_listed(b"PID", 3, 4, 4, "ST"));
        assert!(is_listed(b"OBX", 5, 4, 1, "SN"));
        assert!(!is_listed(b"OBX", 5, 4, 1, "NM"));
        assert!(!is_listed(b"MSH", 8, 1, 1, "ST"));
    }
}
