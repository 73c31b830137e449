//! The profile: which segments, fields and leaves are judged, and by what.

use crate::fault::Reason;
use crate::types::Simple::{self, Dtm, Ft, Id, Is, Nm, Si, St, Tm, Tx};

/// A segment the profile lists.
#[derive(Clone, Copy, Debug, PartialEq, Eq)]
#[allow(missing_docs)]
pub enum Listed {
    Msh,
    Pid,
    Nk1,
    Orc,
    Obr,
    Obx,
    Nte,
}

impl Listed {
    /// How many segments are listed.
    pub const COUNT: usize = 7;

    /// The listed segment of that name, if there is one.
    pub fn named(name: [u8; 3]) -> Option<Listed> {
        match &name {
            b"MSH" => Some(Listed::Msh),
            b"PID" => Some(Listed::Pid),
            b"NK1" => Some(Listed::Nk1),
            b"ORC" => Some(Listed::Orc),
            b"OBR" => Some(Listed::Obr),
            b"OBX" => Some(Listed::Obx),
            b"NTE" => Some(Listed::Nte),
            _ => None,
        }
    }

    /// The listed fields, rising.
    pub fn fields(self) -> &'static [Field] {
        match self {
            Listed::Msh => MSH,
            Listed::Pid => PID,
            Listed::Nk1 => NK1,
            Listed::Orc => ORC,
            Listed::Obr => OBR,
            Listed::Obx => OBX,
            Listed::Nte => NTE,
        }
    }

    /// Whether this segment may come next after the listed one before it.
    pub fn may_follow(self, before: Option<Listed>) -> bool {
        use Listed::{Msh, Nk1, Nte, Obr, Obx, Orc, Pid};
        match before {
            None => self == Msh,
            Some(Msh) => self == Pid,
            Some(Pid | Nk1) => matches!(self, Nk1 | Orc | Obr),
            Some(Orc) => self == Obr,
            Some(Obr | Obx | Nte) => matches!(self, Nte | Obx | Orc | Obr),
        }
    }

    /// Whether the message may end after this segment.
    pub fn may_end(self) -> bool {
        matches!(self, Listed::Obr | Listed::Obx | Listed::Nte)
    }
}

/// Whether a field must be filled.
#[derive(Clone, Copy, Debug, PartialEq, Eq)]
pub enum Usage {
    /// R.
    Required,
    /// O.
    Optional,
    /// C: OBX-2, which OBX-5 needs.
    Conditional,
}

/// A listed field.
#[derive(Clone, Copy, Debug)]
pub struct Field {
    /// Its number in the segment.
    pub number: u32,
    /// Whether it must be filled.
    pub usage: Usage,
    /// The greatest number of repetitions.
    pub most: u32,
    /// The listed leaves, rising; `None` for OBX-5, where OBX-2 names them.
    pub leaves: Option<&'static [LeafRule]>,
}

/// A listed leaf and what it must meet.
#[derive(Clone, Copy, Debug)]
pub struct LeafRule {
    /// Component and subcomponent.
    pub place: (u32, u32),
    /// Its type.
    pub simple: Simple,
    /// Its limit in bytes, counted after resolving.
    pub limit: usize,
    /// Whether it is R within a filled repetition.
    pub starred: bool,
    /// The list it must be in.
    pub list: Option<List>,
}

/// A list of values, compared as written.
#[derive(Clone, Copy, Debug, PartialEq, Eq)]
#[allow(missing_docs)]
pub enum List {
    MessageType,
    EventCode,
    ProcessingId,
    VersionId,
    Sex,
    YesNo,
    OrderControl,
    ResultStatus,
    ValueType,
    ObservationStatus,
}

impl List {
    /// Whether the value is in the list.
    pub fn holds(self, value: &[u8]) -> bool {
        match self {
            List::MessageType => value == b"ORU",
            List::EventCode => value == b"R01",
            List::ProcessingId => matches!(value, b"D" | b"P" | b"T"),
            List::VersionId => value == b"2.5.1",
            List::Sex => matches!(value, b"A" | b"F" | b"M" | b"N" | b"O" | b"U"),
            List::YesNo => matches!(value, b"Y" | b"N"),
            List::OrderControl => value == b"RE",
            List::ResultStatus => matches!(
                value,
                b"A" | b"C" | b"F" | b"I" | b"O" | b"P" | b"R" | b"S" | b"X" | b"Y" | b"Z"
            ),
            List::ValueType => matches!(
                value,
                b"CE" | b"DTM" | b"FT" | b"NM" | b"SN" | b"ST" | b"TM" | b"TX"
            ),
            List::ObservationStatus => matches!(
                value,
                b"C" | b"D" | b"F" | b"I" | b"N" | b"O" | b"P" | b"R" | b"S" | b"U" | b"W" | b"X"
            ),
        }
    }

    /// The reason for a value that isn't in the list.
    pub fn reason(self) -> Reason {
        match self {
            List::MessageType => Reason::MessageType,
            List::EventCode => Reason::EventCode,
            List::ProcessingId => Reason::ProcessingId,
            List::VersionId => Reason::VersionId,
            _ => Reason::NotInList,
        }
    }
}

/// The leaves of OBX-5 for the type that OBX-2's first repetition names.
pub fn value_leaves(named: &[u8]) -> &'static [LeafRule] {
    match named {
        b"CE" => CE,
        b"DTM" => DTM,
        b"FT" => FT,
        b"NM" => NM,
        b"SN" => SN,
        b"TM" => TM,
        b"TX" => TX,
        // ST itself, and whatever is Empty or not in OBX-2's list.
        _ => ST,
    }
}

const fn leaf(component: u32, simple: Simple) -> LeafRule {
    LeafRule {
        place: (component, 1),
        simple,
        limit: simple.limit(),
        starred: false,
        list: None,
    }
}

impl LeafRule {
    const fn subcomponent(self, number: u32) -> LeafRule {
        let place = (self.place.0, number);
        LeafRule { place, ..self }
    }

    const fn starred(self) -> LeafRule {
        LeafRule {
            starred: true,
            ..self
        }
    }

    const fn limited(self, limit: usize) -> LeafRule {
        LeafRule { limit, ..self }
    }

    const fn of(self, list: List) -> LeafRule {
        let list = Some(list);
        LeafRule { list, ..self }
    }
}

const fn field(number: u32, usage: Usage, leaves: Option<&'static [LeafRule]>) -> Field {
    Field {
        number,
        usage,
        most: 1,
        leaves,
    }
}

const fn required(number: u32, leaves: &'static [LeafRule]) -> Field {
    field(number, Usage::Required, Some(leaves))
}

const fn optional(number: u32, leaves: &'static [LeafRule]) -> Field {
    field(number, Usage::Optional, Some(leaves))
}

impl Field {
    const fn times(self, most: u32) -> Field {
        Field { most, ..self }
    }
}

// The types. MSG, PT and VID stand in one field each and so hold its lists.

const SI: &[LeafRule] = &[leaf(1, Si)];
const ID: &[LeafRule] = &[leaf(1, Id)];
const IS: &[LeafRule] = &[leaf(1, Is)];
const NM: &[LeafRule] = &[leaf(1, Nm)];
const TM: &[LeafRule] = &[leaf(1, Tm)];
const DTM: &[LeafRule] = &[leaf(1, Dtm)];
const ST: &[LeafRule] = &[leaf(1, St)];
const TX: &[LeafRule] = &[leaf(1, Tx)];
const FT: &[LeafRule] = &[leaf(1, Ft)];
const TS: &[LeafRule] = &[leaf(1, Dtm).starred()];
/// The leaves of an HD, which a reply copies.
pub const HD: &[LeafRule; 3] = &[leaf(1, Is), leaf(2, St), leaf(3, Id)];
const MSG: &[LeafRule] = &[
    leaf(1, Id).starred().of(List::MessageType),
    leaf(2, Id).starred().of(List::EventCode),
    leaf(3, Id),
];
const PT: &[LeafRule] = &[leaf(1, Id).starred().of(List::ProcessingId)];
const VID: &[LeafRule] = &[leaf(1, Id).starred().of(List::VersionId)];
const CX: &[LeafRule] = &[
    leaf(1, St).starred(),
    leaf(4, Is),
    leaf(4, St).subcomponent(2),
    leaf(4, Id).subcomponent(3),
    leaf(5, Id),
];
const XPN: &[LeafRule] = &[leaf(1, St), leaf(2, St), leaf(3, St), leaf(7, Id)];
const EI: &[LeafRule] = &[leaf(1, St).starred(), leaf(2, Is), leaf(3, St), leaf(4, Id)];
const CE: &[LeafRule] = &[
    leaf(1, St).starred(),
    leaf(2, St),
    leaf(3, Id),
    leaf(4, St),
    leaf(5, St),
    leaf(6, Id),
];
const SN: &[LeafRule] = &[leaf(1, St), leaf(2, Nm), leaf(3, St), leaf(4, Nm)];

// The segments.

/// MSH-10's leaf, which a reply and a slip need.
pub const CONTROL_NUMBER: LeafRule = leaf(1, St).limited(20);

const MSH: &[Field] = &[
    optional(3, HD),
    required(4, HD),
    optional(5, HD),
    optional(6, HD),
    required(7, TS),
    required(9, MSG),
    required(10, &[CONTROL_NUMBER]),
    required(11, PT),
    required(12, VID),
];
const PID: &[Field] = &[
    optional(1, SI),
    required(3, CX).times(5),
    required(5, XPN).times(2),
    required(7, TS),
    optional(8, &[leaf(1, Is).of(List::Sex)]),
    optional(24, &[leaf(1, Id).of(List::YesNo)]),
    optional(25, NM),
];
const NK1: &[Field] = &[required(1, SI), optional(2, XPN).times(2), required(3, CE)];
const ORC: &[Field] = &[
    required(1, &[leaf(1, Id).of(List::OrderControl)]),
    optional(2, EI),
    optional(3, EI),
];
const OBR: &[Field] = &[
    required(1, SI),
    optional(2, EI),
    required(3, EI),
    required(4, CE),
    required(7, TS),
    optional(25, &[leaf(1, Id).of(List::ResultStatus)]),
];
const OBX: &[Field] = &[
    required(1, SI),
    field(
        2,
        Usage::Conditional,
        Some(&[leaf(1, Id).limited(3).of(List::ValueType)]),
    ),
    required(3, CE),
    optional(4, &[leaf(1, St).limited(20)]),
    field(5, Usage::Optional, None),
    optional(6, CE),
    optional(7, &[leaf(1, St).limited(60)]),
    optional(8, IS).times(5),
    required(11, &[leaf(1, Id).of(List::ObservationStatus)]),
    optional(14, TS),
];
const NTE: &[Field] = &[optional(1, SI), optional(2, ID), optional(3, FT).times(8)];
