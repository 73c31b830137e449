//! The first fault of a message.

use crate::escape;
use crate::fault::{Fault, Place, Reason};
use crate::frame::{self, Frame};
use crate::parts::{FieldWalk, Fields, Segment};
use crate::profile::{self, Field, LeafRule, Listed, Usage};
use crate::refusal::Refusal;

/// What the judge says of a message whose frame holds.
#[derive(Clone, Copy, Debug, PartialEq, Eq)]
pub enum Verdict {
    /// No fault.
    Accepted,
    /// The first fault.
    Fault(Fault),
}

/// Judges a message: its first fault, or none. Refuses with 1 to 8.
pub fn judge(message: &[u8]) -> Result<Verdict, Refusal> {
    let frame = frame::check(message)?;
    Ok(match first_fault(&frame) {
        None => Verdict::Accepted,
        Some(fault) => Verdict::Fault(fault),
    })
}

/// The first fault of a message whose frame holds.
pub fn first_fault(frame: &Frame<'_>) -> Option<Fault> {
    judge_segments(frame).err()
}

/// Walks the listed segments in message order, then looks at the end.
fn judge_segments(frame: &Frame<'_>) -> Result<(), Fault> {
    let mut occurrences = [0; Listed::COUNT];
    let mut last = None;
    let mut here = Here::default();
    for segment in frame.segments() {
        let name = segment.name();
        let listed = match Listed::named(name) {
            Some(listed) => listed,
            None => continue,
        };
        let occurrence = &mut occurrences[listed as usize];
        *occurrence += 1;
        here = Here {
            name,
            occurrence: *occurrence,
        };
        if !listed.may_follow(last) {
            return Err(here.fault(Reason::OutOfPlace));
        }
        here.judge_fields(listed, segment)?;
        last = Some(listed);
    }
    if last.map_or(false, Listed::may_end) {
        Ok(())
    } else {
        Err(here.fault(Reason::EndOutOfPlace))
    }
}

/// The segment being judged.
#[derive(Clone, Copy, Default)]
struct Here {
    name: [u8; 3],
    occurrence: u32,
}

impl Here {
    /// Walks the listed fields, rising.
    fn judge_fields(&self, listed: Listed, segment: Segment<'_>) -> Result<(), Fault> {
        let mut fields = Fields::of(segment);
        let mut value_leaves: &[LeafRule] = &[];
        for field in listed.fields() {
            fields.go_to(field.number);
            if field.usage == Usage::Conditional {
                value_leaves = profile::value_leaves(fields.first_leaf(field.number));
            }
            let leaves = field.leaves.unwrap_or(value_leaves);
            if fields.at_zero_bytes() {
                if is_owed(field, fields) {
                    return Err(self.missing_field(field));
                }
            } else {
                let walk = self.judge_field(field, leaves, fields)?;
                fields.leave(&walk);
            }
        }
        Ok(())
    }

    /// Too many repetitions come before all else in a field, so a fault met
    /// earlier on the way gives way to them.
    fn judge_field<'m>(
        &self,
        field: &Field,
        leaves: &[LeafRule],
        fields: Fields<'m>,
    ) -> Result<FieldWalk<'m>, Fault> {
        let judged = self.judge_repetitions(field, leaves, fields);
        judged.map_err(|fault| match fields.repetitions() > field.most {
            true => self.surplus(field),
            false => fault,
        })
    }

    /// Walks the repetitions of a field that has bytes, to the field's end.
    fn judge_repetitions<'m>(
        &self,
        field: &Field,
        leaves: &[LeafRule],
        fields: Fields<'m>,
    ) -> Result<FieldWalk<'m>, Fault> {
        let mut walk = fields.walk();
        let filled = self.judge_repetition(field, 1, leaves, &mut walk)?;
        if !filled && is_owed(field, fields) {
            return Err(self.missing_field(field));
        }
        let mut repetition = 1;
        while walk.next_repetition() {
            if repetition == field.most {
                return Err(self.surplus(field));
            }
            repetition += 1;
            self.judge_repetition(field, repetition, leaves, &mut walk)?;
        }
        Ok(walk)
    }

    /// Walks one repetition, and says whether it is filled.
    fn judge_repetition(
        &self,
        field: &Field,
        repetition: u32,
        leaves: &[LeafRule],
        walk: &mut FieldWalk<'_>,
    ) -> Result<bool, Fault> {
        judge_leaves(leaves, walk).map_err(|leaf| self.leaf_fault(field, repetition, leaf))
    }

    fn fault(&self, reason: Reason) -> Fault {
        let place = Place {
            name: self.name,
            occurrence: self.occurrence,
            field: 0,
            repetition: 0,
            component: 0,
            subcomponent: 0,
        };
        Fault { place, reason }
    }

    fn field_fault(&self, field: &Field, repetition: u32, reason: Reason) -> Fault {
        let mut fault = self.fault(reason);
        fault.place.field = field.number;
        fault.place.repetition = repetition;
        fault
    }

    fn missing_field(&self, field: &Field) -> Fault {
        self.field_fault(field, 1, Reason::Missing)
    }

    fn surplus(&self, field: &Field) -> Fault {
        self.field_fault(field, field.most + 1, Reason::TooManyRepetitions)
    }

    fn leaf_fault(&self, field: &Field, repetition: u32, leaf: LeafFault<'_>) -> Fault {
        let mut fault = self.field_fault(field, repetition, leaf.reason);
        (fault.place.component, fault.place.subcomponent) = leaf.rule.place;
        fault
    }
}

/// Whether the field's first repetition, not being filled, is missing.
fn is_owed(field: &Field, fields: Fields<'_>) -> bool {
    match field.usage {
        Usage::Required => true,
        Usage::Optional => false,
        Usage::Conditional => is_observed(fields),
    }
}

/// Whether OBX-5's first repetition is filled, seen from an OBX-2 that
/// isn't. OBX-5 then has the one leaf of an ST.
fn is_observed(mut fields: Fields<'_>) -> bool {
    !fields.first_leaf(5).is_empty()
}

/// A fault in a leaf.
struct LeafFault<'p> {
    rule: &'p LeafRule,
    reason: Reason,
}

impl<'p> LeafFault<'p> {
    fn missing(rule: &'p LeafRule) -> Self {
        let reason = Reason::Missing;
        LeafFault { rule, reason }
    }
}

/// Walks the listed leaves of one repetition, rising, and says whether it is
/// filled. An Empty * leaf is a fault only if another leaf fills the
/// repetition; that may be a later one, whose own faults then come after.
fn judge_leaves<'p>(
    rules: &'p [LeafRule],
    walk: &mut FieldWalk<'_>,
) -> Result<bool, LeafFault<'p>> {
    let mut filled = false;
    let mut owed = None;
    for rule in rules {
        let leaf = walk.leaf(rule.place);
        if !leaf.is_empty() {
            if let Some(rule) = owed {
                return Err(LeafFault::missing(rule));
            }
            filled = true;
            judge_leaf(rule, leaf).map_err(|reason| LeafFault { rule, reason })?;
        } else if rule.starred {
            if filled {
                return Err(LeafFault::missing(rule));
            }
            owed = owed.or(Some(rule));
        }
    }
    Ok(filled)
}

/// Judges a leaf that isn't Empty. Its length is that of the text a person
/// reads, its escapes resolved, so they are judged before it. Type and list
/// look at the leaf as it is written.
fn judge_leaf(rule: &LeafRule, leaf: &[u8]) -> Result<(), Reason> {
    let length = escape::resolved_length(leaf).map_err(|_| Reason::BadEscape)?;
    if length > rule.limit {
        return Err(Reason::TooLong);
    }
    if !rule.simple.admits(leaf) {
        return Err(Reason::NotOfType);
    }
    if rule.simple.names_no_such_day(leaf) {
        return Err(Reason::NoSuchDay);
    }
    match rule.list {
        Some(list) if !list.holds(leaf) => Err(list.reason()),
        _ => Ok(()),
    }
}
