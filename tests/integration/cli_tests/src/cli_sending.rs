//! Tests of `cli_sending`: which locales are UTF-8. What is printed of letters is in the tests of `cli_lines`.

use cli_sending::is_utf8_locale;
use std::test::Fail;

/// The values of `LC_ALL`, `LC_CTYPE` and `LANG`, and whether characters are UTF-8 then (POSIX, Base Definitions, 8.2).
const LOCALES: [(Option<&str>, Option<&str>, Option<&str>, bool); 11] = [
    (None, None, None, false),
    (None, None, Some("en_US.UTF-8"), true),
    (None, None, Some("C.utf8"), true),
    (None, Some("de_DE.Utf-8@euro"), Some("C"), true),
    (None, Some("C"), Some("en_US.UTF-8"), false),
    (Some("POSIX"), Some("C.UTF-8"), Some("C.UTF-8"), false),
    (Some(""), Some(""), Some("ja_JP.UTF8"), true),
    (Some(""), Some("ja_JP.eucJP"), Some("C.UTF-8"), false),
    (None, None, Some("UTF-8"), false),
    (None, None, Some("en_US.UTF-16"), false),
    (None, None, Some("de_DE@UTF-8"), false),
];

#[test]
fn reads_locales(rt: HostRuntime) -> Result<(), Fail> {
    for (lc_all, lc_ctype, lang, wanted) in LOCALES {
        assert_eq!(rt; is_utf8_locale(lc_all, lc_ctype, lang), wanted);
    }
    Ok(())
}
