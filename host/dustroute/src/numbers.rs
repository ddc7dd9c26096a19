//! Records lent as numbers or as bytes, and numbers read back. What is read is
//! checked although the library's contract leaves no doubt: an archive of
//! another version must not pass for this one.

use crate::bytes::NUMBER;
use crate::{ComponentId, PortRef, Refusal};

/// A number as it is lent.
pub type Bytes = [u8; NUMBER];

/// The records of a list. Beyond the limit one more is lent, for which the
/// whole list is refused.
pub fn records<T, R>(list: &[T], limit: usize, record: impl Fn(&T) -> R) -> Vec<R> {
    list.iter().take(limit + 1).map(record).collect()
}

/// The same as bytes.
pub fn lend<T, const WIDTH: usize>(
    list: &[T],
    limit: usize,
    record: impl Fn(&T) -> [i64; WIDTH],
) -> Vec<[Bytes; WIDTH]> {
    records(list, limit, |item| record(item).map(i64::to_le_bytes))
}

/// The counts of an accepted answer.
pub fn counts(answer: u64) -> Result<[usize; 3], Refusal> {
    if let Some(refusal) = Refusal::of(answer) {
        return Err(refusal);
    }
    Ok([16, 32, 48].map(|bits| usize::from((answer >> bits) as u16)))
}

/// A number that is to fit into a narrower type.
pub fn number<T: TryFrom<u64>>(bytes: Bytes) -> Result<T, Refusal> {
    T::try_from(u64::from_le_bytes(bytes)).map_err(|_| Refusal::UNREADABLE)
}

/// A number that counts groups or regions, and is below their count.
pub fn below(count: usize, bytes: Bytes) -> Result<usize, Refusal> {
    let number = number(bytes)?;
    if number < count {
        Ok(number)
    } else {
        Err(Refusal::UNREADABLE)
    }
}

pub fn id(bytes: Bytes) -> Result<ComponentId, Refusal> {
    number(bytes).map(ComponentId)
}

pub fn port_ref(component: Bytes, port: Bytes) -> Result<PortRef, Refusal> {
    Ok(PortRef::new(id(component)?, number(port)?))
}

/// The item of a table at a code.
pub fn at<T: Copy>(table: &[T], code: Bytes) -> Result<T, Refusal> {
    let place: usize = number(code)?;
    table.get(place).copied().ok_or(Refusal::UNREADABLE)
}

/// The first rows of a slice, of which there must be so many.
pub fn rows<T>(slice: &[T], count: usize) -> Result<&[T], Refusal> {
    slice.get(..count).ok_or(Refusal::UNREADABLE)
}

#[cfg(test)]
mod tests {
    use super::{at, below, counts, id, number, rows};
    use crate::{ComponentId, Refusal};

    #[test]
    fn counts_stand_above_sixteen_bits() {
        let answer = 3 << 16 | 2_048 << 32 | 4_096 << 48;
        assert_eq!(counts(answer), Ok([3, 2_048, 4_096]));
        assert!(counts(answer + 1).is_err());
    }

    #[test]
    fn what_no_contract_allows_is_unreadable() {
        let bytes = |number: u64| number.to_le_bytes();
        assert_eq!(id(bytes(u64::from(u32::MAX))), Ok(ComponentId(u32::MAX)));
        assert_eq!(id(bytes(1 << 32)), Err(Refusal::UNREADABLE));
        assert_eq!(number::<u8>(bytes(256)), Err(Refusal::UNREADABLE));
        assert_eq!(below(3, bytes(2)), Ok(2));
        assert_eq!(below(3, bytes(3)), Err(Refusal::UNREADABLE));
        assert_eq!(at(&['a', 'b'], bytes(1)), Ok('b'));
        assert_eq!(at(&['a', 'b'], bytes(2)), Err(Refusal::UNREADABLE));
        assert_eq!(rows(&[1, 2], 3), Err(Refusal::UNREADABLE));
    }
}
