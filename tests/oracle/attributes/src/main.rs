//! Prints the items of values of custom attributes (II.23.3), for tests/oracle/attributes/run. A line of the input is the codes of
//! the types of parameters, a space, and a blob, all in hexadecimal. The output has a line for each.
#![tactic(auto)]

use anyhow::{Context, Result};
use blob_values::{Argument, ArgumentType, Element, ElementType, Item, Items, Member, Scalar, Value};
use std::alloc::Global;
use std::io::Read;

fn main(rt: HostRuntime) -> Result<()> {
    let mut input = String::new(rt.alloc());
    rt.reader().read_to_string(&mut input)?;
    for line in input.lines() {
        let (codes, blob) = line.split_once(' ').context("a line has two parts")?;
        let (codes, blob) = (hex::decode(rt.alloc(), codes)?, hex::decode(rt.alloc(), blob)?);
        let mut params = Vec::new(rt.alloc());
        let mut is_vector = false;
        for code in &codes {
            if *code != 0x1D {
                let of = type_of(*code)?;
                params.push(if is_vector { ArgumentType::Vector(of) } else { ArgumentType::One(of) })?;
            }
            is_vector = *code == 0x1D;
        }
        match Items::of(&blob, &params) {
            Some(items) => {
                for item in items {
                    let words = words_of(rt.alloc(), item)?;
                    print!(rt; "{words} ")?;
                }
                println!(rt; "")?;
            }
            None => println!(rt; "none")?,
        }
    }
    Ok(())
}

/// The type of elements with this code.
fn type_of(code: u8) -> Result<ElementType> {
    match code {
        0x50 => Ok(ElementType::SystemType),
        0x51 => Ok(ElementType::Simple(Element::Object)),
        _ => Ok(ElementType::Simple(Element::from_byte(code).context("a code of a type")?)),
    }
}

fn words_of(alloc: Global, item: Item<'_>) -> Result<String> {
    Ok(match item {
        Item::Fixed(argument) => format!(in alloc; "fixed {}", argument_words(alloc, argument)?)?,
        Item::Element(value) => format!(in alloc; "element {}", value_words(alloc, value)?)?,
        Item::NamedCount(count) => format!(in alloc; "named {count}")?,
        Item::Named(member, name, argument) => {
            let kind = if member == Member::Field { "field" } else { "property" };
            format!(in alloc; "{kind} {} {}", digits(alloc, Some(name))?, argument_words(alloc, argument)?)?
        }
    })
}

fn argument_words(alloc: Global, argument: Argument<'_>) -> Result<String> {
    match argument {
        Argument::One(value) => value_words(alloc, value),
        Argument::Vector(of, count) => Ok(format!(in alloc; "array {of:?} {count:?}")?),
    }
}

fn value_words(alloc: Global, value: Value<'_>) -> Result<String> {
    Ok(match value {
        Value::Plain(Scalar::Number(of, bits)) => format!(in alloc; "{of:?} {bits}")?,
        Value::Plain(Scalar::String(text)) => format!(in alloc; "string {}", digits(alloc, text)?)?,
        Value::Plain(Scalar::SystemType(text)) => format!(in alloc; "type {}", digits(alloc, text)?)?,
        Value::Boxed(value) => format!(in alloc; "boxed {}", value_words(alloc, Value::Plain(value))?)?,
    })
}

fn digits(alloc: Global, text: Option<&str>) -> Result<String> {
    match text {
        Some(text) => Ok(hex::encode(alloc, text.as_bytes())?),
        None => Ok(String::from_str(alloc, "null")?),
    }
}
