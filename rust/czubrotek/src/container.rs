//! What arrays and objects of both formats have in common.

/// Writes an array or object of a document as a type: with the document beside its offset and length, a method for each of
/// the two, `is_empty`, and `IntoIterator` by its own `iter`.
macro_rules! container {
    (
        $(#[$about:meta])*
        pub struct $name:ident<'a> {
            $(#[$about_offset:meta])*
            offset: $offset:ty,
            $(#[$about_len:meta])*
            len: usize,
        }

        impl IntoIterator<Item = $item:ty, IntoIter = $iter:ty>;
    ) => {
        $(#[$about])*
        #[derive(Debug, Clone, Copy)]
        pub struct $name<'a> {
            document: Document<'a>,
            offset: $offset,
            len: usize,
        }

        impl<'a> $name<'a> {
            $(#[$about_offset])*
            pub fn offset(&self) -> $offset {
                self.offset
            }

            $(#[$about_len])*
            pub fn len(&self) -> usize {
                self.len
            }

            /// Whether it has none.
            pub fn is_empty(&self) -> bool {
                self.len == 0
            }
        }

        impl<'a> IntoIterator for $name<'a> {
            type Item = $item;
            type IntoIter = $iter;

            fn into_iter(self) -> $iter {
                self.iter()
            }
        }
    };
}

pub(crate) use container;
