//! Flags with the names of the standard (II.23.1, II.25.3.3.1).
//!
//! ```
//! use clim::flags::{Access, MethodFlags};
//!
//! let flags = MethodFlags(0x96);
//! assert!(flags.contains(MethodFlags::STATIC) && flags.access() == Some(Access::Public));
//! assert_eq!(format!("{flags:?}"), "MethodFlags(STATIC | HIDE_BY_SIG | 0x6)");
//! ```
//!
//! A constant has one bit. A choice in two bits or more is a method; it is `None` if the standard does not name what the bits
//! are. Bits without a name stay in a value.

use crate::rows;
use std::fmt;
use std::ops::{BitAnd, BitOr};

/// The names of the bits of a value, and what is left as a number.
fn names_in(bits: u32, names: &[(&str, u32)]) -> String {
    let its = names.iter().filter(|it| bits & it.1 != 0);
    let left = its.clone().fold(bits, |left, it| left & !it.1);
    let number = (left != 0 || bits == 0).then(|| format!("{left:#x}"));
    its.map(|it| it.0.to_string()).chain(number).collect::<Vec<_>>().join(" | ")
}

macro_rules! flags {
    ($(#[doc = $about:literal] $name:ident { $($flag:ident = $bit:literal,)* })*) => {$(
        #[doc = $about]
        #[derive(Clone, Copy, Default, PartialEq, Eq, PartialOrd, Ord, Hash)]
        pub struct $name(pub u32);

        impl $name {
            $(#[doc = concat!("The bit ", stringify!($bit), ".")] pub const $flag: $name = $name($bit);)*

            /// Whether it has all bits of another value.
            pub const fn contains(self, other: $name) -> bool {
                self.0 & other.0 == other.0
            }
        }

        impl BitOr for $name {
            type Output = $name;

            fn bitor(self, other: $name) -> $name {
                $name(self.0 | other.0)
            }
        }

        impl BitAnd for $name {
            type Output = $name;

            fn bitand(self, other: $name) -> $name {
                $name(self.0 & other.0)
            }
        }

        impl fmt::Debug for $name {
            fn fmt(&self, f: &mut fmt::Formatter) -> fmt::Result {
                write!(f, "{}({})", stringify!($name), names_in(self.0, &[$((stringify!($flag), $bit)),*]))
            }
        }
    )*};
}

flags! {
    /// Flags of a type (II.23.1.15).
    TypeFlags {
        INTERFACE = 0x20,
        ABSTRACT = 0x80,
        SEALED = 0x100,
        SPECIAL_NAME = 0x400,
        RT_SPECIAL_NAME = 0x800,
        IMPORT = 0x1000,
        SERIALIZABLE = 0x2000,
        HAS_SECURITY = 0x40000,
        BEFORE_FIELD_INIT = 0x100000,
        FORWARDER = 0x200000,
    }

    /// Flags of a field (II.23.1.5).
    FieldFlags {
        STATIC = 0x10,
        INIT_ONLY = 0x20,
        LITERAL = 0x40,
        NOT_SERIALIZED = 0x80,
        HAS_FIELD_RVA = 0x100,
        SPECIAL_NAME = 0x200,
        RT_SPECIAL_NAME = 0x400,
        HAS_FIELD_MARSHAL = 0x1000,
        PINVOKE_IMPL = 0x2000,
        HAS_DEFAULT = 0x8000,
    }

    /// Flags of a method (II.23.1.10).
    MethodFlags {
        UNMANAGED_EXPORT = 0x8,
        STATIC = 0x10,
        FINAL = 0x20,
        VIRTUAL = 0x40,
        HIDE_BY_SIG = 0x80,
        NEW_SLOT = 0x100,
        STRICT = 0x200,
        ABSTRACT = 0x400,
        SPECIAL_NAME = 0x800,
        RT_SPECIAL_NAME = 0x1000,
        PINVOKE_IMPL = 0x2000,
        HAS_SECURITY = 0x4000,
        REQUIRE_SEC_OBJECT = 0x8000,
    }

    /// Flags of the implementation of a method (II.23.1.11).
    MethodImplFlags {
        UNMANAGED = 0x4,
        NO_INLINING = 0x8,
        FORWARD_REF = 0x10,
        SYNCHRONIZED = 0x20,
        NO_OPTIMIZATION = 0x40,
        PRESERVE_SIG = 0x80,
        INTERNAL_CALL = 0x1000,
    }

    /// Flags of a parameter (II.23.1.13).
    ParamFlags {
        IN = 0x1,
        OUT = 0x2,
        OPTIONAL = 0x10,
        HAS_DEFAULT = 0x1000,
        HAS_FIELD_MARSHAL = 0x2000,
    }

    /// Flags of an event (II.23.1.4).
    EventFlags {
        SPECIAL_NAME = 0x200,
        RT_SPECIAL_NAME = 0x400,
    }

    /// Flags of a property (II.23.1.14).
    PropertyFlags {
        SPECIAL_NAME = 0x200,
        RT_SPECIAL_NAME = 0x400,
        HAS_DEFAULT = 0x1000,
    }

    /// What a method is to an event or a property (II.23.1.12).
    SemanticsFlags {
        SETTER = 0x1,
        GETTER = 0x2,
        OTHER = 0x4,
        ADD_ON = 0x8,
        REMOVE_ON = 0x10,
        FIRE = 0x20,
    }

    /// Flags of a method of unmanaged code (II.23.1.8).
    ImportFlags {
        NO_MANGLE = 0x1,
        SUPPORTS_LAST_ERROR = 0x40,
    }

    /// Flags of a generic parameter (II.23.1.7).
    GenericParamFlags {
        REFERENCE_TYPE_CONSTRAINT = 0x4,
        NOT_NULLABLE_VALUE_TYPE_CONSTRAINT = 0x8,
        DEFAULT_CONSTRUCTOR_CONSTRAINT = 0x10,
    }

    /// Flags of an assembly (II.23.1.2).
    AssemblyFlags {
        PUBLIC_KEY = 0x1,
        RETARGETABLE = 0x100,
        DISABLE_JIT_COMPILE_OPTIMIZER = 0x4000,
        ENABLE_JIT_COMPILE_TRACKING = 0x8000,
    }

    /// Flags of the CLI header (II.25.3.3.1).
    HeaderFlags {
        IL_ONLY = 0x1,
        REQUIRES_32_BIT = 0x2,
        STRONG_NAME_SIGNED = 0x8,
        NATIVE_ENTRY_POINT = 0x10,
        TRACK_DEBUG_DATA = 0x10000,
    }
}

macro_rules! choices {
    ($(
        #[doc = $about:literal]
        $name:ident in $mask:literal of $($of:ident . $call:ident)+ { $($choice:ident = $bits:literal,)* }
    )*) => {$(
        #[doc = $about]
        #[derive(Clone, Copy, Debug, PartialEq, Eq, PartialOrd, Ord, Hash)]
        #[repr(u32)]
        pub enum $name {
            $(#[doc = concat!("The bits ", stringify!($bits), ".")] $choice = $bits,)*
        }

        impl $name {
            fn of(bits: u32) -> Option<$name> {
                match bits & $mask {
                    $($bits => Some($name::$choice),)*
                    _ => None,
                }
            }
        }

        $(impl $of {
            #[doc = $about]
            pub fn $call(self) -> Option<$name> {
                $name::of(self.0)
            }
        })+
    )*};
}

choices! {
    /// Who sees a type (II.23.1.15).
    Visibility in 0x7 of TypeFlags.visibility {
        NotPublic = 0,
        Public = 1,
        NestedPublic = 2,
        NestedPrivate = 3,
        NestedFamily = 4,
        NestedAssembly = 5,
        NestedFamAndAssem = 6,
        NestedFamOrAssem = 7,
    }

    /// How the fields of a type are laid out (II.23.1.15).
    Layout in 0x18 of TypeFlags.layout {
        Auto = 0,
        Sequential = 0x8,
        Explicit = 0x10,
    }

    /// Who may use a field or a method (II.23.1.5, II.23.1.10).
    Access in 0x7 of FieldFlags.access MethodFlags.access {
        CompilerControlled = 0,
        Private = 1,
        FamAndAssem = 2,
        Assem = 3,
        Family = 4,
        FamOrAssem = 5,
        Public = 6,
    }

    /// What the body of a method is (II.23.1.11).
    CodeType in 0x3 of MethodImplFlags.code_type {
        Il = 0,
        Native = 1,
        Optil = 2,
        Runtime = 3,
    }

    /// How strings are passed to unmanaged code (II.23.1.8).
    CharSet in 0x6 of ImportFlags.char_set {
        NotSpec = 0,
        Ansi = 0x2,
        Unicode = 0x4,
        Auto = 0x6,
    }

    /// How unmanaged code is called (II.23.1.8).
    CallConv in 0x700 of ImportFlags.call_conv {
        PlatformApi = 0x100,
        Cdecl = 0x200,
        StdCall = 0x300,
        ThisCall = 0x400,
        FastCall = 0x500,
    }

    /// The variance of a generic parameter (II.23.1.7).
    Variance in 0x3 of GenericParamFlags.variance {
        None = 0,
        Covariant = 1,
        Contravariant = 2,
    }
}

macro_rules! cells {
    ($($row:ident<'_>.$cell:ident => $call:ident: $flags:ident,)*) => {$(
        impl rows::$row<'_> {
            #[doc = concat!("The cell `", stringify!($cell), "`, with names for its bits.")]
            pub fn $call(&self) -> $flags {
                $flags(self.$cell)
            }
        }
    )*};
}

cells! {
    TypeDef<'_>.flags => typed_flags: TypeFlags,
    Field<'_>.flags => typed_flags: FieldFlags,
    MethodDef<'_>.flags => typed_flags: MethodFlags,
    MethodDef<'_>.impl_flags => typed_impl_flags: MethodImplFlags,
    Param<'_>.flags => typed_flags: ParamFlags,
    Event<'_>.event_flags => typed_flags: EventFlags,
    Property<'_>.flags => typed_flags: PropertyFlags,
    ImplMap<'_>.mapping_flags => typed_flags: ImportFlags,
    GenericParam<'_>.flags => typed_flags: GenericParamFlags,
    Assembly<'_>.flags => typed_flags: AssemblyFlags,
    AssemblyRef<'_>.flags => typed_flags: AssemblyFlags,
}

impl rows::MethodSemantics {
    /// The cell `semantics`, with names for its bits.
    pub fn typed_flags(&self) -> SemanticsFlags {
        SemanticsFlags(self.semantics)
    }
}
