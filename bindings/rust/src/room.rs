//! Memory that the crate takes, in ways that fail and do not abort.

use crate::Fault;

/// Makes room for as many more items. E12 if allocation fails.
pub(crate) fn reserve<T>(items: &mut Vec<T>, count: usize) -> Result<(), Fault> {
    items.try_reserve_exact(count).map_err(|_| Fault::out_of_memory())
}

/// Makes room for one more item, and for more of them at once the longer the list is. E12 if
/// allocation fails.
pub(crate) fn reserve_more<T>(items: &mut Vec<T>) -> Result<(), Fault> {
    items.try_reserve(1).map_err(|_| Fault::out_of_memory())
}

/// Returns as many default items.
pub(crate) fn filled<T: Clone + Default>(count: usize) -> Result<Vec<T>, Fault> {
    let mut items = Vec::new();
    reserve(&mut items, count)?;
    items.resize(count, T::default());
    Ok(items)
}

/// Returns a text of its own, which ends before the first byte that is not UTF-8.
pub(crate) fn owned(text: &[u8]) -> Result<String, Fault> {
    let mut bytes = Vec::new();
    reserve(&mut bytes, text.len())?;
    bytes.extend_from_slice(text);
    Ok(String::from_utf8(bytes).unwrap_or_else(|error| {
        let valid = error.utf8_error().valid_up_to();
        let mut bytes = error.into_bytes();
        bytes.truncate(valid);
        String::from_utf8(bytes).unwrap_or_default()
    }))
}

/// Returns texts one after another.
pub(crate) fn joined(parts: &[&str]) -> Result<String, Fault> {
    let mut text = String::new();
    let size = parts.iter().map(|part| part.len()).sum();
    text.try_reserve_exact(size).map_err(|_| Fault::out_of_memory())?;
    parts.iter().for_each(|part| text.push_str(part));
    Ok(text)
}
