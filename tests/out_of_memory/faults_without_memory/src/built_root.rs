use sample_roots::ONE_MODULE;

/// The offset of the table stream in a built root: the beginning and two stream headers precede it.
const TABLES: usize = 60;

/// A root that is built without allocation. Its streams are `#~` and `#Blob`, so each text in it is empty.
#[derive(Drop)]
pub struct BuiltRoot {
    bytes: [u8; 512],
    len: usize,
}

impl BuiltRoot {
    /// A root of these rows, each with the number of its table, in ascending order; and of these bytes of `#Blob`.
    pub fn new(rows: &[(u8, &[u8])], blobs: &[u8]) -> BuiltRoot {
        let mut root = BuiltRoot {
            bytes: [0; 512],
            len: 0,
        };
        let numbers = || rows.iter().map(|row| row.0);
        let tables = (0..0x2D).filter(|table| numbers().any(|number| number == *table));
        let valid = tables.fold(0, |bits, table| bits | 1u64 << table);
        let len: usize = rows.iter().map(|row| row.1.len()).sum();
        let len = (24 + 4 * valid.count_ones() as usize + len).next_multiple_of(4);
        // The signature, the version, no flags, and two streams.
        root.put(&ONE_MODULE[..28]);
        root.put(&[0, 0, 2, 0]);
        root.put_header(TABLES, len, b"#~\0\0");
        root.put_header(TABLES + len, blobs.len(), b"#Blob\0\0\0");
        root.put(&[0, 0, 0, 0, 2, 0, 0, 1]);
        root.put(&valid.to_le_bytes());
        // The Sorted bits.
        root.put(&ONE_MODULE[96..104]);
        root.put_counts(rows);
        for row in rows {
            root.put(row.1);
        }
        root.len = TABLES + len;
        root.put(blobs);
        root
    }

    /// The bytes of the root.
    pub fn bytes(&self) -> &[u8] {
        &self.bytes[..self.len]
    }

    fn put(&mut self, part: &[u8]) {
        for byte in part {
            self.bytes[self.len] = *byte;
            self.len += 1;
        }
    }

    fn put_header(&mut self, offset: usize, len: usize, name: &[u8]) {
        self.put(&(offset as u32).to_le_bytes());
        self.put(&(len as u32).to_le_bytes());
        self.put(name);
    }

    fn put_counts(&mut self, rows: &[(u8, &[u8])]) {
        for table in 0..0x2Du8 {
            let count = rows.iter().filter(|row| row.0 == table).count();
            if count > 0 {
                self.put(&(count as u32).to_le_bytes());
            }
        }
    }
}
