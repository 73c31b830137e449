//! Segments that are accepted, with what is required and no more, and the message that begins other ones.

pub const HEADER: &str = "MSH|^~\\&||L|||2024||ORU^R01|C7|P|2.5.1\r";
pub const PATIENT: &str = "PID|||A||B||2024\r";
pub const KIN: &str = "NK1|1||C\r";
pub const ORDER: &str = "ORC|RE\r";
pub const GROUP: &str = "OBR|1||F|P|||2024\r";
pub const OBSERVATION: &str = "OBX|1||P||||||||F\r";
pub const NOTE: &str = "NTE\r";

/// Header, patient and group, which other messages begin with; the group has no notes or observations yet.
pub const START: &str = "MSH|^~\\&||L|||2024||ORU^R01|C7|P|2.5.1\rPID|||A||B||2024\rOBR|1||F|P|||2024\r";

#[cfg(test)]
mod tests {
    use super::*;

    #[test]
    fn the_start_is_made_of_its_segments() {
        assert_eq!(START, [HEADER, PATIENT, GROUP].concat());
    }
}
