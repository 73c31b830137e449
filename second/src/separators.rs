//! The five separators, and the header that names them.

/// Stands between fields.
pub const FIELD: u8 = b'|';
/// Stands between the components of a repetition.
pub const COMPONENT: u8 = b'^';
/// Stands between the repetitions of a field.
pub const REPETITION: u8 = b'~';
/// Begins and ends an escape.
pub const ESCAPE: u8 = b'\\';
/// Stands between the subcomponents of a component.
pub const SUBCOMPONENT: u8 = b'&';

/// The first nine bytes of every message: MSH, the five separators, and the
/// field separator again.
pub const HEADER: &[u8] = &[
    b'M',
    b'S',
    b'H',
    FIELD,
    COMPONENT,
    REPETITION,
    ESCAPE,
    SUBCOMPONENT,
    FIELD,
];
/// How many of them stand before the separator of MSH-3: the name, MSH-1 and
/// MSH-2.
pub const HEADER_HEAD: usize = HEADER.len() - 1;
