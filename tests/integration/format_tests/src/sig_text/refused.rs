use sig_text::{SigKind, TextSink, Token, write_signature};

/// A sink that refuses one word, and takes those before it and after it.
#[derive(Drop)]
struct Words {
    bad: usize,
    offered: usize,
    refused: bool,
}

impl Words {
    /// A sink that refuses the word at this index.
    fn new(bad: usize) -> Words {
        Words {
            bad,
            offered: 0,
            refused: false,
        }
    }

    /// Takes a word, or refuses it.
    fn take(&mut self) -> Option<()> {
        self.offered += 1;
        if self.offered > self.bad && !self.refused {
            self.refused = true;
            return None;
        }
        Some(())
    }
}

impl TextSink for Words {
    ghost refused = { λ s. s.refused };

    fn text(&mut self, _text: &str) -> Option<()> {
        self.take()
    }

    fn number(&mut self, _number: u32) -> Option<()> {
        self.take()
    }

    fn signed(&mut self, _value: i64) -> Option<()> {
        self.take()
    }

    fn name(&mut self, _token: Token) -> Option<()> {
        self.take()
    }
}

/// An instance method of two generic parameters, whose parameters are an array, an instance after a modifier and
/// a pointer to a method.
const METHOD: &[u8] = &[
    0x30, 0x02, 0x03, 0x01, 0x14, 0x08, 0x02, 0x01, 0x03, 0x01, 0x00, 0x1F, 0x05, 0x15, 0x12, 0x09,
    0x01, 0x1E, 0x00, 0x1B, 0x00, 0x01, 0x01, 0x10, 0x11, 0x04,
];

/// A field with three modifiers: an array of three dimensions, with two sizes and three low bounds.
const FIELD: &[u8] = &[
    0x06, 0x1F, 0x05, 0x20, 0x09, 0x1F, 0x0D, 0x14, 0x08, 0x03, 0x02, 0x02, 0x03, 0x03, 0x00, 0x02,
    0x7F,
];

/// The first word after whose refusal the text of a signature goes on; `None` if it ends at each of the `count`.
fn first_passed_over(blob: &[u8], kind: SigKind, count: usize) -> Option<usize> {
    (0..count).find(|bad| {
        let mut words = Words::new(*bad);
        let written = write_signature(&mut words, blob, kind);
        written.is_some() || !words.refused || words.offered != *bad + 1
    })
}

#[test]
fn a_text_ends_with_the_word_that_is_refused(rt: HostRuntime) {
    for (blob, kind, least) in [
        (METHOD, SigKind::MethodDef, 30),
        (FIELD, SigKind::Field, 15),
    ] {
        let mut all = Words::new(usize::MAX);
        assert!(rt; write_signature(&mut all, blob, kind).is_some());
        assert!(rt; least < all.offered);
        assert_eq!(rt; first_passed_over(blob, kind, all.offered), None);
    }
}
