//! Calls on sheets, with the lists that are lent for them.

use crate::{
    BlockKind, Component, ComponentId, Connection, ConnectionKind, Facing, Form, Position, Rules,
    Sheet, limits,
};

mod raw {
    //! As in `include/dustroute_sheets.h`: a slice passes as a pointer and then a
    //! count of its bytes or numbers.

    unsafe extern "C" {
        pub fn dustroute_sheet(
            text: *const u8,
            text_len: usize,
            components: *mut i64,
            components_len: usize,
            connections: *mut i64,
            connections_len: usize,
            frontiers: *mut i64,
            frontiers_len: usize,
            head: *mut u64,
            head_len: usize,
        ) -> u64;

        pub fn dustroute_report(
            text: *const u8,
            text_len: usize,
            components: *mut i64,
            components_len: usize,
            connections: *mut i64,
            connections_len: usize,
            frontiers: *mut i64,
            frontiers_len: usize,
            out: *mut u8,
            out_len: usize,
        ) -> u64;

        pub fn dustroute_convert(
            text: *const u8,
            text_len: usize,
            components: *mut i64,
            components_len: usize,
            connections: *mut i64,
            connections_len: usize,
            frontiers: *mut i64,
            frontiers_len: usize,
            out: *mut u8,
            out_len: usize,
        ) -> u64;

        pub fn dustroute_join(
            first: *const u8,
            first_len: usize,
            second: *const u8,
            second_len: usize,
            components: *mut i64,
            components_len: usize,
            connections: *mut i64,
            connections_len: usize,
            frontiers: *mut i64,
            frontiers_len: usize,
            out: *mut u8,
            out_len: usize,
        ) -> u64;
    }
}

/// An entry that writes a text.
pub type Writer = unsafe extern "C" fn(
    *const u8,
    usize,
    *mut i64,
    usize,
    *mut i64,
    usize,
    *mut i64,
    usize,
    *mut u8,
    usize,
) -> u64;

/// The report of a sheet.
pub const REPORT: Writer = raw::dustroute_report;

/// A sheet in its other form.
pub const CONVERT: Writer = raw::dustroute_convert;

/// The lists of a sheet, or of two, as numbers. They have room for the longest that
/// are accepted.
pub struct Work {
    components: Vec<[i64; 8]>,
    connections: Vec<[i64; 3]>,
    frontiers: Vec<[i64; 3]>,
}

impl Work {
    pub fn new() -> Self {
        Self::for_sheets(1)
    }

    /// Room for the records of so many sheets.
    pub fn for_sheets(count: usize) -> Self {
        Self {
            components: vec![[0; 8]; count * limits::COMPONENTS],
            connections: vec![[0; 3]; count * limits::CONNECTIONS],
            frontiers: vec![[0; 3]; count * limits::FRONTIERS],
        }
    }

    pub fn sheet(&mut self, text: &[u8], head: &mut [u64; 2]) -> u64 {
        let components = self.components.as_flattened_mut();
        let connections = self.connections.as_flattened_mut();
        let frontiers = self.frontiers.as_flattened_mut();
        // SAFETY: each pointer is to a whole slice of the length beside it. The
        // callee only reads the first, and the borrows keep the others apart.
        unsafe {
            raw::dustroute_sheet(
                text.as_ptr(),
                text.len(),
                components.as_mut_ptr(),
                components.len(),
                connections.as_mut_ptr(),
                connections.len(),
                frontiers.as_mut_ptr(),
                frontiers.len(),
                head.as_mut_ptr(),
                head.len(),
            )
        }
    }

    /// The report, or the sheet in the other form.
    pub fn write(&mut self, writer: Writer, text: &[u8], out: &mut [u8]) -> u64 {
        let components = self.components.as_flattened_mut();
        let connections = self.connections.as_flattened_mut();
        let frontiers = self.frontiers.as_flattened_mut();
        // SAFETY: as for `sheet`; the writers are the two entries above.
        unsafe {
            writer(
                text.as_ptr(),
                text.len(),
                components.as_mut_ptr(),
                components.len(),
                connections.as_mut_ptr(),
                connections.len(),
                frontiers.as_mut_ptr(),
                frontiers.len(),
                out.as_mut_ptr(),
                out.len(),
            )
        }
    }

    /// Two sheets as one.
    pub fn join(&mut self, first: &[u8], second: &[u8], out: &mut [u8]) -> u64 {
        let components = self.components.as_flattened_mut();
        let connections = self.connections.as_flattened_mut();
        let frontiers = self.frontiers.as_flattened_mut();
        // SAFETY: as for `sheet`; the callee only reads the first two.
        unsafe {
            raw::dustroute_join(
                first.as_ptr(),
                first.len(),
                second.as_ptr(),
                second.len(),
                components.as_mut_ptr(),
                components.len(),
                connections.as_mut_ptr(),
                connections.len(),
                frontiers.as_mut_ptr(),
                frontiers.len(),
                out.as_mut_ptr(),
                out.len(),
            )
        }
    }

    /// Form, rules and lists; none where a number is none that the types can hold,
    /// which no valid sheet has.
    pub fn read(&self, counts: [usize; 3], [form, rules]: [u64; 2]) -> Option<Sheet> {
        let [components, connections, frontiers] = counts;
        let components = self.components.get(..components)?.iter();
        let connections = self.connections.get(..connections)?.iter();
        let frontiers = self.frontiers.get(..frontiers)?.iter();
        Some(Sheet {
            form: Form::ALL.into_iter().find(|it| it.number() == form)?,
            rules: Rules::try_from(i64::try_from(rules).ok()?).ok()?,
            components: components.map(component).collect::<Option<_>>()?,
            connections: connections.map(connection).collect::<Option<_>>()?,
            frontiers: frontiers.map(position).collect::<Option<_>>()?,
        })
    }
}

fn at<T: Copy>(table: &[T], code: i64) -> Option<T> {
    table.get(usize::try_from(code).ok()?).copied()
}

fn face(code: i64) -> Option<Option<Facing>> {
    match code {
        0 => Some(None),
        _ => at(&Facing::ALL, code - 1).map(Some),
    }
}

fn id(number: i64) -> Option<ComponentId> {
    u32::try_from(number).ok().map(ComponentId)
}

pub fn position(&[x, y, z]: &[i64; 3]) -> Option<Position> {
    let [x, y, z] = [x, y, z].map(i32::try_from);
    Some(Position::new(x.ok()?, y.ok()?, z.ok()?))
}

/// None where a number is none that the types can hold.
pub fn component(record: &[i64; 8]) -> Option<Component> {
    let &[number, x, y, z, kind, facing, support, conducts] = record;
    Some(Component {
        id: id(number)?,
        position: position(&[x, y, z])?,
        kind: at(&BlockKind::ALL, kind)?,
        facing: face(facing)?,
        support: face(support)?,
        conducts: at(&[false, true], conducts)?,
    })
}

fn connection(&[source, sink, kind]: &[i64; 3]) -> Option<Connection> {
    Some(Connection {
        source: id(source)?,
        sink: id(sink)?,
        kind: at(&ConnectionKind::ALL, kind)?,
    })
}

#[cfg(test)]
mod tests {
    use super::Work;
    use crate::{Form, Rules};

    const COMPONENT: [i64; 8] = [4_294_967_295, -30_000_000, 0, 7, 12, 6, 0, 1];

    fn work(component: [i64; 8]) -> Work {
        Work {
            components: vec![component],
            connections: vec![[3, 4_294_967_295, 9]],
            frontiers: vec![[0, 30_000_000, -1]],
        }
    }

    #[test]
    fn what_no_contract_allows_is_unreadable() {
        let good = work(COMPONENT);
        let sheet = good.read([1, 1, 1], [2, 3]);
        let head = sheet.map(|it| (it.form, it.rules, it.components.len()));
        assert_eq!(head, Some((Form::Short, Rules::Three, 1)));
        for (counts, head) in [
            ([1, 1, 1], [0, 1]),
            ([1, 1, 1], [3, 1]),
            ([0, 0, 0], [1, 4]),
            ([2, 0, 0], [1, 1]),
            ([0, 2, 0], [1, 1]),
            ([0, 0, 2], [1, 1]),
        ] {
            assert_eq!(good.read(counts, head), None, "{counts:?} {head:?}");
        }
        for (field, wrong) in [(0, -1), (1, 1 << 40), (4, 13), (5, 7), (6, -1), (7, 2)] {
            let mut component = COMPONENT;
            component
                .iter_mut()
                .skip(field)
                .take(1)
                .for_each(|it| *it = wrong);
            assert_eq!(work(component).read([1, 0, 0], [1, 1]), None, "{field}");
        }
    }
}
