//! Little-endian fields that follow each other without gap: a struct's fields in order are its bytes.

pub trait Field: Copy {
    const SIZE: usize;
    fn put(self, bytes: &mut [u8]);
    fn take(bytes: &[u8]) -> Self;
}

macro_rules! number {
    ($($number:ty),*) => { $(
        impl Field for $number {
            const SIZE: usize = size_of::<$number>();

            #[inline]
            fn put(self, bytes: &mut [u8]) {
                bytes[..Self::SIZE].copy_from_slice(&self.to_le_bytes());
            }

            #[inline]
            fn take(bytes: &[u8]) -> Self {
                Self::from_le_bytes(bytes[..Self::SIZE].try_into().expect("SIZE bytes"))
            }
        }
    )* };
}

number!(u8, u16, u32, u64);

impl<T: Field, const N: usize> Field for [T; N] {
    const SIZE: usize = T::SIZE * N;

    #[inline]
    fn put(self, bytes: &mut [u8]) {
        for (index, item) in self.into_iter().enumerate() {
            item.put(&mut bytes[index * T::SIZE..]);
        }
    }

    #[inline]
    fn take(bytes: &[u8]) -> Self {
        std::array::from_fn(|index| T::take(&bytes[index * T::SIZE..]))
    }
}

/// A struct of fields, and its bytes in the order of the text.
macro_rules! fields {
    ($(#[$about:meta])* $name:ident { $($field:ident: $kind:ty,)* }) => {
        $(#[$about])*
        #[derive(Clone, Copy, Debug, PartialEq, Eq)]
        pub struct $name {
            $(pub $field: $kind,)*
        }

        impl $crate::layout::Field for $name {
            const SIZE: usize = 0 $(+ <$kind as $crate::layout::Field>::SIZE)*;

            #[inline]
            fn put(self, bytes: &mut [u8]) {
                let mut at = 0;
                $(
                    self.$field.put(&mut bytes[at..]);
                    at += <$kind as $crate::layout::Field>::SIZE;
                )*
                debug_assert_eq!(at, Self::SIZE);
            }

            #[inline]
            fn take(bytes: &[u8]) -> Self {
                let mut at = 0;
                $(
                    let $field = <$kind as $crate::layout::Field>::take(&bytes[at..]);
                    at += <$kind as $crate::layout::Field>::SIZE;
                )*
                debug_assert_eq!(at, Self::SIZE);
                Self { $($field,)* }
            }
        }
    };
}

pub(crate) use fields;
