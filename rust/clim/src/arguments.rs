//! The arguments of custom attributes (II.23.3).

use crate::fault::Unsupported;
use crate::library;
use crate::view::View;
use clim_sys::{
    clim_attribute_item, CLIM_ARRAY, CLIM_BOOLEAN, CLIM_CHAR, CLIM_ELEMENT, CLIM_FIXED_ARGUMENT, CLIM_I1, CLIM_I2,
    CLIM_I4, CLIM_I8, CLIM_NAMED_COUNT, CLIM_NOT_DECODED, CLIM_NO_ITEM, CLIM_PROPERTY_ARGUMENT, CLIM_R4, CLIM_R8,
    CLIM_STRING, CLIM_SYSTEM_TYPE,
};

/// The number of items that most values have at most.
const USUAL_ITEMS: usize = 16;

/// The value of an argument. That of an enum is its number, and that of an object is the value in it.
#[derive(Clone, Debug, PartialEq)]
pub enum AttributeValue<'a> {
    /// A boolean.
    Bool(bool),
    /// A UTF-16 unit.
    Char(u16),
    /// A signed integer of 8, 16, 32 or 64 bits.
    Int(i64),
    /// An unsigned integer of 8, 16, 32 or 64 bits.
    Uint(u64),
    /// A number of 32 bits.
    Float(f32),
    /// A number of 64 bits.
    Double(f64),
    /// A string; `None` is null.
    String(Option<&'a str>),
    /// The name of a type, as `System.Type` writes it: `System.String, mscorlib`; `None` is null.
    Type(Option<&'a str>),
    /// An array; `None` is null.
    Array(Option<Vec<AttributeValue<'a>>>),
}

/// A named argument.
#[derive(Clone, Debug, PartialEq)]
pub struct NamedArgument<'a> {
    /// The name of the field or the property that it sets.
    pub name: &'a str,
    /// Whether it sets a property.
    pub is_property: bool,
    /// The value.
    pub value: AttributeValue<'a>,
}

/// The arguments of a custom attribute. [`View::arguments_of`] reads them.
#[derive(Clone, Debug, Default, PartialEq)]
pub struct Arguments<'a> {
    /// The arguments of the constructor.
    pub fixed: Vec<AttributeValue<'a>>,
    /// The fields and properties that are set, in order.
    pub named: Vec<NamedArgument<'a>>,
}

/// The value of an item, without the elements of an array.
///
/// # Safety
///
/// A call wrote the item, and the root that it was read from lives and does not change for `'a`.
unsafe fn value_of<'a>(item: &clim_attribute_item) -> AttributeValue<'a> {
    let number = item.number;
    // SAFETY: Names and texts are parts of the root, in UTF-8.
    let text = (!item.is_null).then(|| unsafe { library::text(&item.text) });
    match item.of {
        _ if item.form == CLIM_ARRAY => AttributeValue::Array((!item.is_null).then(Vec::new)),
        CLIM_BOOLEAN => AttributeValue::Bool(number != 0),
        CLIM_CHAR => AttributeValue::Char(number as u16),
        CLIM_I1 => AttributeValue::Int(i64::from(number as i8)),
        CLIM_I2 => AttributeValue::Int(i64::from(number as i16)),
        CLIM_I4 => AttributeValue::Int(i64::from(number as i32)),
        CLIM_I8 => AttributeValue::Int(number as i64),
        CLIM_R4 => AttributeValue::Float(f32::from_bits(number as u32)),
        CLIM_R8 => AttributeValue::Double(f64::from_bits(number)),
        CLIM_STRING => AttributeValue::String(text),
        CLIM_SYSTEM_TYPE => AttributeValue::Type(text),
        _ => AttributeValue::Uint(number),
    }
}

impl<'a> Arguments<'a> {
    /// The argument that came last.
    fn last(&mut self) -> Option<&mut AttributeValue<'a>> {
        let Arguments { fixed, named } = self;
        named.last_mut().map(|it| &mut it.value).or(fixed.last_mut())
    }

    /// Adds an item.
    ///
    /// # Safety
    ///
    /// That of [`value_of`].
    unsafe fn add(&mut self, item: &clim_attribute_item) {
        // SAFETY: The caller ensures it.
        let (value, name) = unsafe { (value_of(item), library::text(&item.name)) };
        match item.kind {
            CLIM_FIXED_ARGUMENT => self.fixed.push(value),
            CLIM_ELEMENT => {
                if let Some(AttributeValue::Array(Some(elements))) = self.last() {
                    elements.push(value);
                }
            }
            CLIM_NAMED_COUNT => {}
            kind => self.named.push(NamedArgument { name, is_property: kind == CLIM_PROPERTY_ARGUMENT, value }),
        }
    }
}

impl<'a> View<'a> {
    /// The arguments of the attribute in a row of CustomAttribute (II.22.10, II.23.3). `None` if there is no such row, or its
    /// value is not decoded.
    ///
    /// The value is decoded by the types of the constructor's parameters. That fails for an enum of another file, whose size
    /// is unknown, for more than 64 parameters, and for bytes that are no value. Time and memory are in proportion to the
    /// bytes of the value, which rows of a crafted file may share.
    ///
    /// # Errors
    ///
    /// The library is older than this crate.
    pub fn arguments_of(&self, attribute_row: u32) -> Result<Option<Arguments<'a>>, Unsupported> {
        Unsupported::unless(clim_sys::HAS_ATTRIBUTE_ITEMS, "clim_attribute_items")?;
        let mut items = vec![CLIM_NO_ITEM; USUAL_ITEMS];
        loop {
            let count = self.write_items(attribute_row, &mut items);
            if count == 0 || count == CLIM_NOT_DECODED {
                return Ok(None);
            }
            if count <= items.len() {
                let mut arguments = Arguments::default();
                // SAFETY: The call wrote these items, and their texts are parts of the root, which is borrowed for `'a`.
                items[..count].iter().for_each(|item| unsafe { arguments.add(item) });
                return Ok(Some(arguments));
            }
            items.resize(count, CLIM_NO_ITEM);
        }
    }
}
