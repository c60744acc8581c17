use cli::go;
use sample_roots::write_at;
use std::fs;
use std::test::Fail;

/// What a call prints, and its status.
pub fn answer(rt: &HostRuntime, words: &[&str]) -> Result<(u8, String, String), Fail> {
    let mut out = Vec::new(rt.alloc());
    let mut err = Vec::new(rt.alloc());
    let status = go(rt, words, &mut out, &mut err);
    let out = String::from_utf8(out).ok().ok_or("no text")?;
    let err = String::from_utf8(err).ok().ok_or("no text")?;
    Ok((status, out, err))
}

/// What the program prints for a file's first `len` bytes, some of them changed, and its exit code.
#[derive(Clone, Copy)]
pub struct Case<'a> {
    len: usize,
    offset: usize,
    bytes: &'a [u8],
    status: u8,
    reported: &'a str,
}

impl<'a> Case<'a> {
    /// What the program prints for the first `len` bytes with `bytes` written over those at `offset`: on the
    /// output if the exit code is 0, else on standard error.
    pub const fn new(len: usize, offset: usize, bytes: &'a [u8], status: u8, reported: &'a str) -> Self {
        Case {
            len,
            offset,
            bytes,
            status,
            reported,
        }
    }
}

/// What the program prints for a case of a file, by the arguments before the file's name, if that is
/// not what the case expects.
pub fn other_answer(
    rt: &HostRuntime,
    words: &[&str],
    sample: &[u8],
    case: &Case,
) -> Result<Option<String>, Fail> {
    let mut file: Vec<u8> = sample.iter().copied().take(case.len).collect(rt.alloc())?;
    write_at(&mut file, case.offset, case.bytes);
    fs::write(rt, "a.file", file.as_slice())?;
    let mut words: Vec<&str> = words.to_vec(rt.alloc())?;
    words.push("a.file")?;
    let (status, out, err) = answer(rt, &words)?;
    fs::remove_file(rt, "a.file")?;
    let (want_out, want_err) = if case.status == 0 {
        (case.reported, "")
    } else {
        ("", case.reported)
    };
    if status == case.status && out.as_str() == want_out && err.as_str() == want_err {
        return Ok(None);
    }
    Ok(Some(format!(in rt.alloc(); "{status}: {out}{err}")?))
}
