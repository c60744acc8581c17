//! Tables and tokens.

use crate::library;
use std::fmt;

macro_rules! tables {
    ($(#[doc = $about:literal] $name:ident = $number:literal,)*) => {
        /// A table, by its number (II.22).
        #[derive(Clone, Copy, Debug, PartialEq, Eq, PartialOrd, Ord, Hash)]
        #[repr(u8)]
        pub enum Table {
            $(#[doc = $about] $name = $number,)*
        }

        impl Table {
            /// All tables, in the order of their numbers.
            pub const ALL: [Table; 38] = [$(Table::$name),*];

            /// The table with a number; `None` if there is none.
            pub fn from_number(number: u8) -> Option<Table> {
                match number {
                    $($number => Some(Table::$name),)*
                    _ => None,
                }
            }
        }
    };
}

tables! {
    /// The module (II.22.30).
    Module = 0x00,
    /// A type of another module (II.22.38).
    TypeRef = 0x01,
    /// A type (II.22.37).
    TypeDef = 0x02,
    /// A field (II.22.15).
    Field = 0x04,
    /// A method (II.22.26).
    MethodDef = 0x06,
    /// A parameter (II.22.33).
    Param = 0x08,
    /// An interface that a type implements (II.22.23).
    InterfaceImpl = 0x09,
    /// A field or a method of another type (II.22.25).
    MemberRef = 0x0A,
    /// A constant value (II.22.9).
    Constant = 0x0B,
    /// A custom attribute (II.22.10).
    CustomAttribute = 0x0C,
    /// How a field or a parameter is marshalled (II.22.17).
    FieldMarshal = 0x0D,
    /// A permission set (II.22.11).
    DeclSecurity = 0x0E,
    /// The layout of a type (II.22.8).
    ClassLayout = 0x0F,
    /// The offset of a field in its type (II.22.16).
    FieldLayout = 0x10,
    /// A signature that no other row has (II.22.36).
    StandAloneSig = 0x11,
    /// The events of a type (II.22.12).
    EventMap = 0x12,
    /// An event (II.22.13).
    Event = 0x14,
    /// The properties of a type (II.22.35).
    PropertyMap = 0x15,
    /// A property (II.22.34).
    Property = 0x17,
    /// A method of an event or a property (II.22.28).
    MethodSemantics = 0x18,
    /// A method that implements another (II.22.27).
    MethodImpl = 0x19,
    /// Another module (II.22.31).
    ModuleRef = 0x1A,
    /// A type that a signature describes (II.22.39).
    TypeSpec = 0x1B,
    /// A method of unmanaged code (II.22.22).
    ImplMap = 0x1C,
    /// The address of the initial value of a field (II.22.18).
    FieldRVA = 0x1D,
    /// The assembly (II.22.2).
    Assembly = 0x20,
    /// A processor (II.22.4).
    AssemblyProcessor = 0x21,
    /// An operating system (II.22.3).
    AssemblyOS = 0x22,
    /// Another assembly (II.22.5).
    AssemblyRef = 0x23,
    /// A processor of another assembly (II.22.7).
    AssemblyRefProcessor = 0x24,
    /// An operating system of another assembly (II.22.6).
    AssemblyRefOS = 0x25,
    /// A file of the assembly (II.22.19).
    File = 0x26,
    /// A type of another module of the assembly, or one that moved (II.22.14).
    ExportedType = 0x27,
    /// A resource (II.22.24).
    ManifestResource = 0x28,
    /// A nested type (II.22.32).
    NestedClass = 0x29,
    /// A generic parameter (II.22.20).
    GenericParam = 0x2A,
    /// A generic method with its arguments (II.22.29).
    MethodSpec = 0x2B,
    /// A constraint of a generic parameter (II.22.21).
    GenericParamConstraint = 0x2C,
}

impl Table {
    /// The number of the table.
    pub fn number(self) -> u8 {
        self as u8
    }

    /// The name of the table, for example `"TypeDef"`.
    pub fn name(self) -> &'static str {
        library::table_name(self.number())
    }

    /// The names of its columns, in the order of the cells of a row.
    pub fn columns(self) -> impl Iterator<Item = &'static str> {
        (0..library::cell_count(self.number())).map(move |column| library::column_name(self.number(), column))
    }
}

impl Table {
    /// The column of its signatures; `None` if it has none. No table has two.
    pub(crate) fn signature_column(self) -> Option<usize> {
        match self {
            Table::StandAloneSig | Table::TypeSpec => Some(0),
            Table::MethodSpec => Some(1),
            Table::Field | Table::MemberRef | Table::Property => Some(2),
            Table::MethodDef => Some(4),
            _ => None,
        }
    }
}

impl fmt::Display for Table {
    fn fmt(&self, f: &mut fmt::Formatter) -> fmt::Result {
        f.write_str(self.name())
    }
}

/// The largest row that a token can name (III.1.9).
pub(crate) const MOST_ROWS: u32 = 0xFF_FFFF;

/// A row of a table. As a number, 0x02000005 is row 5 of TypeDef.
#[derive(Clone, Copy, Debug, PartialEq, Eq, PartialOrd, Ord, Hash)]
pub struct Token {
    /// The table.
    pub table: Table,
    /// The row, counted from 1.
    pub row: u32,
}

impl Token {
    /// The token that is a number, such as 0x02000005 or the entry point of a [`Header`](crate::Header); `None` if no table has
    /// the number in its high byte.
    pub fn from_u32(number: u32) -> Option<Token> {
        let [table, ..] = number.to_be_bytes();
        Table::from_number(table).map(|table| Token { table, row: number & MOST_ROWS })
    }
}

impl From<Token> for u32 {
    fn from(token: Token) -> u32 {
        u32::from(token.table.number()) << 24 | token.row
    }
}

impl fmt::Display for Token {
    fn fmt(&self, f: &mut fmt::Formatter) -> fmt::Result {
        write!(f, "{:08x}", u32::from(*self))
    }
}

#[cfg(test)]
mod tests {
    use super::Table;

    #[test]
    fn columns_of_signatures_have_their_names() {
        for table in Table::ALL {
            let names: Vec<_> = table.columns().collect();
            match table.signature_column() {
                Some(column) => assert!(["Signature", "Type", "Instantiation"].contains(&names[column]), "{table}"),
                None => assert!(!names.iter().any(|it| ["Signature", "Instantiation"].contains(it)), "{table}"),
            }
        }
    }
}
