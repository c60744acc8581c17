/// What bytes are opened and loaded as.
#[derive(Clone, Copy, Debug, PartialEq)]
pub enum Form {
    /// A bare metadata root.
    Root,
    /// A file with its headers.
    Image,
}
