//! Stub: the branch without rayon, which maps in order.

pub(crate) fn map_with_scratch<T, S: ?Sized, B, O>(
    items: &[T],
    _min_len: usize,
    scratch: &mut S,
    _fork: impl Fn(&S) -> B,
    f: impl Fn(&mut S, &T) -> O,
) -> Vec<O> {
    items.iter().map(|item| f(scratch, item)).collect()
}
