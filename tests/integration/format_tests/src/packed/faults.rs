use packed::{Fault, FaultCode};
use std::test::Fail;

#[test]
fn numbers_and_names_each_rule(rt: HostRuntime) {
    for (code, layer, number, name) in [
        (FaultCode::TooLong, 1, 101, "TooLong"),
        (FaultCode::Sections, 1, 108, "Sections"),
        (FaultCode::MetadataAddress, 2, 204, "MetadataAddress"),
        (FaultCode::NoTables, 3, 308, "NoTables"),
        (FaultCode::TablesShort, 4, 407, "TablesShort"),
        (FaultCode::BadUserString, 5, 508, "BadUserString"),
        (FaultCode::NestedOrder, 6, 604, "NestedOrder"),
        (FaultCode::SignatureIndex, 7, 702, "SignatureIndex"),
        (FaultCode::EntryPoint, 8, 801, "EntryPoint"),
        (FaultCode::TooLarge, 9, 901, "TooLarge"),
    ] {
        let fault = Fault::new(code, 12);
        assert_eq!(rt;
            fault,
            Fault {
                layer,
                code: number,
                offset: 12
            }
        );
        assert_eq!(rt; fault.name(), name);
    }
}

#[test]
fn rebases_a_fault(rt: HostRuntime) {
    let fault = Fault::new(FaultCode::Version, 12);
    assert_eq!(rt; fault.rebased(0x200), Fault::new(FaultCode::Version, 0x20C));
}

#[test]
fn reports_a_fault_in_one_line(rt: HostRuntime) -> Result<(), Fail> {
    let fault = Fault::new(FaultCode::StreamCount, 28);
    let line = format!(in rt.alloc(); "{fault}")?;
    assert_eq!(rt; line.as_str(), "fault 3 303 at 28: StreamCount");
    Ok(())
}

#[test]
fn names_no_other_code(rt: HostRuntime) {
    for code in [
        0, 100, 199, 299, 300, 399, 499, 509, 510, 599, 699, 799, 899, 999, 65535,
    ] {
        let fault = Fault {
            layer: 0,
            code,
            offset: 0,
        };
        assert_eq!(rt; fault.name(), "");
    }
}
