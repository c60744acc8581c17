use crate::cli::disks::{Disk, answer_on};
use crate::runs::answer;
use sample_roots::{ONE_MODULE, TWO_TYPES, image};
use std::fs;
use std::test::Fail;

/// Offsets in the sample: its certificate directory, the StrongNameSignature of its CLI header, and its root.
const CERTIFICATE: usize = 280;
const STRONG_NAME: usize = 552;
const ROOT: usize = 592;

const NAME_LINE: &str = "warning: the strong name no longer fits; sign OUT again, or clear it by '--unsigned'\n";
const CERTIFICATE_LINE: &str = "warning: the certificate no longer fits; OUT has none\n";

/// Offsets of SectionAlignment, FileAlignment and HeaderSize, which are 0 in the sample.
const ALIGNMENTS: usize = 184;
const HEADER_SIZE: usize = 212;

/// The sample with two numbers at an offset, as a directory has them.
fn with_numbers(offset: usize, first: u32, second: u32) -> [u8; 1024] {
    let mut bytes = image();
    bytes[offset..offset + 4].copy_from_slice(&first.to_le_bytes());
    bytes[offset + 4..offset + 8].copy_from_slice(&second.to_le_bytes());
    bytes
}

/// The sample has its canonical root, so that its copy is the sample.
#[test]
fn copies_a_file_with_its_root(rt: HostRuntime) -> Result<(), Fail> {
    fs::write(&rt, "embed.dll", image().as_slice())?;
    for (words, line) in [
        (["clim", "embed", "embed.dll", "copy.dll"].as_slice(), "wrote 1024 bytes\n"),
        (
            &["clim", "embed", "--json", "embed.dll", "copy.dll"],
            "{\"length\":1024,\"offset\":592,\"size\":144}\n",
        ),
        (&["clim", "embed", "embed.dll", "embed.dll"], "wrote 1024 bytes\n"),
    ] {
        let (status, out, err) = answer(&rt, words)?;
        assert_eq!(rt; status, 0, "{err}");
        assert_eq!(rt; out.as_str(), line);
        assert!(rt; err.is_empty());
    }
    assert_eq!(rt; fs::read(&rt, "copy.dll")?.as_slice(), image().as_slice());
    assert_eq!(rt; fs::read(&rt, "embed.dll")?.as_slice(), image().as_slice());
    fs::remove_file(&rt, "embed.dll")?;
    fs::remove_file(&rt, "copy.dll")?;
    Ok(())
}

/// A longer root goes into a new section, and the copy has its metadata. The path of the root can be that of the copy.
#[test]
fn takes_another_root(rt: HostRuntime) -> Result<(), Fail> {
    let mut longer = Vec::from_slice(rt.alloc(), ONE_MODULE.as_slice())?;
    longer.resize(200, 1)?;
    let mut file = with_numbers(ALIGNMENTS, 0x2000, 512);
    file[HEADER_SIZE..HEADER_SIZE + 4].copy_from_slice(&512u32.to_le_bytes());
    fs::write(&rt, "file.dll", file.as_slice())?;
    fs::write(&rt, "longer.root", longer.as_slice())?;
    let words = ["clim", "embed", "--json", "--root", "longer.root", "file.dll", "longer.root"];
    let (status, out, err) = answer(&rt, &words)?;
    assert_eq!(rt; status, 0, "{err}");
    assert_eq!(rt; out.as_str(), "{\"length\":1536,\"offset\":1024,\"size\":200}\n");
    let copy = fs::read(&rt, "longer.root")?;
    assert_eq!(rt; &copy[1024..1224], longer.as_slice());
    assert_eq!(rt; answer(&rt, &["clim", "check", "longer.root"])?.1.as_str(), "ok\n");
    assert_eq!(rt; answer(&rt, &["clim", "compare", "file.dll", "longer.root"])?.1.as_str(), "equal\n");
    fs::remove_file(&rt, "file.dll")?;
    fs::remove_file(&rt, "longer.root")?;
    Ok(())
}

/// Nothing is written if a file breaks a rule or the root does not fit. With two files the fault has the name of its file.
#[test]
fn refuses_a_root(rt: HostRuntime) -> Result<(), Fail> {
    fs::write(&rt, "good.dll", image().as_slice())?;
    fs::write(&rt, "broken.dll", &image()[..100])?;
    fs::write(&rt, "broken.root", &ONE_MODULE[..143])?;
    fs::write(&rt, "types.root", TWO_TYPES.as_slice())?;
    fs::write(&rt, "bound.dll", with_numbers(STRONG_NAME, 8192 + 80, 8).as_slice())?;
    let unlike = "error: cannot embed the root\n  reason: ROOT has other methods, addresses or user strings than FILE\n";
    let occupied = "error: cannot embed the root\n  reason: something else is in the range of FILE's root\n";
    for (words, line) in [
        (["clim", "embed", "broken.dll", "no.dll"].as_slice(), "fault 1 103 at 60: PeSignature\n"),
        (&["clim", "embed", "bound.dll", "no.dll"], occupied),
        (&["clim", "embed", "--root", "types.root", "good.dll", "no.dll"], unlike),
        (
            &["clim", "embed", "--root", "broken.root", "good.dll", "no.dll"],
            "fault 3 305 at 64: StreamRange\n  file: broken.root\n",
        ),
        (
            &["clim", "embed", "--root", "types.root", "broken.dll", "no.dll"],
            "fault 1 103 at 60: PeSignature\n  file: broken.dll\n",
        ),
    ] {
        let (status, out, err) = answer(&rt, words)?;
        assert_eq!(rt; status, 1);
        assert!(rt; out.is_empty());
        assert_eq!(rt; err.as_str(), line);
    }
    let words = ["clim", "embed", "--root", "lacks", "good.dll", "no.dll"];
    let (status, _, err) = answer(&rt, &words)?;
    assert_eq!(rt; status, 3);
    assert_eq!(rt; err.as_str(), "error: cannot read lacks\n  reason: no such file\n");
    assert!(rt; fs::read(&rt, "no.dll").is_err());
    for file in ["good.dll", "broken.dll", "broken.root", "types.root", "bound.dll"] {
        fs::remove_file(&rt, file)?;
    }
    Ok(())
}

/// A signature that no longer fits is reported, and the exit code stays 0.
#[test]
fn warns_of_signatures(rt: HostRuntime) -> Result<(), Fail> {
    fs::write(&rt, "named.dll", with_numbers(STRONG_NAME, 8192, 8).as_slice())?;
    fs::write(&rt, "signed.dll", with_numbers(CERTIFICATE, 1024, 8).as_slice())?;
    for (words, lines) in [
        (["clim", "embed", "named.dll", "out.dll"].as_slice(), NAME_LINE),
        (&["clim", "embed", "--unsigned", "named.dll", "out.dll"], ""),
        (&["clim", "embed", "--unsigned", "signed.dll", "out.dll"], CERTIFICATE_LINE),
    ] {
        let (status, out, err) = answer(&rt, words)?;
        assert_eq!(rt; status, 0, "{err}");
        assert_eq!(rt; out.as_str(), "wrote 1024 bytes\n");
        assert_eq!(rt; err.as_str(), lines);
    }
    // Its certificate is cleared, and nothing else is another.
    assert_eq!(rt; fs::read(&rt, "out.dll")?.as_slice(), image().as_slice());
    for file in ["named.dll", "signed.dll", "out.dll"] {
        fs::remove_file(&rt, file)?;
    }
    Ok(())
}

/// Neither the file nor the root is lost if the disk is full.
#[test]
fn keeps_both_files_on_a_full_disk(rt: HostRuntime) -> Result<(), Fail> {
    fs::write(&rt, "kept.dll", image().as_slice())?;
    fs::write(&rt, "kept.root", ONE_MODULE.as_slice())?;
    for out in ["kept.dll", "kept.root"] {
        let disk = Disk {
            host: &rt,
            room: 1023,
            reported: None,
            at_once: Some(usize::MAX),
            input: &[],
        };
        let words = ["clim", "embed", "--root", "kept.root", "kept.dll", out];
        let (status, printed, _) = answer_on(disk, &words)?;
        assert_eq!(rt; status, 3);
        assert!(rt; printed.is_empty());
    }
    assert_eq!(rt; fs::read(&rt, "kept.dll")?.as_slice(), image().as_slice());
    assert_eq!(rt; fs::read(&rt, "kept.root")?.as_slice(), ONE_MODULE.as_slice());
    assert_eq!(rt; &image()[ROOT..ROOT + 144], ONE_MODULE.as_slice());
    fs::remove_file(&rt, "kept.dll")?;
    fs::remove_file(&rt, "kept.root")?;
    Ok(())
}
