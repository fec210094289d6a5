//! Stands in for boxcar: only its tags, which have no bytes, and which only proofs read.

pub mod tag {
    /// How a tag is read off a value.
    pub trait Names<X> {}

    /// A tag.
    #[derive(Debug)]
    pub struct Tag;

    impl Tag {
        /// The tag of a value.
        pub fn of<X, M: Names<X>>(_value: &X) -> Tag {
            Tag
        }
    }

    #[cfg(test)]
    mod tests {
        use super::*;

        struct Any;

        impl<X> Names<X> for Any {}

        #[test]
        fn a_tag_has_no_bytes() {
            assert_eq!(std::mem::size_of_val(&Tag::of::<u8, Any>(&7)), 0);
        }
    }
}
