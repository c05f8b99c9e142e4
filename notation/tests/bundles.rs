//! Tables as bytes and back.

use notation::assemble;
use notation::bundles::{decode, encode, to_bundle, unframe};

#[test]
fn tables_come_back_from_their_bytes() {
    for pool in ["", "odd", "even"] {
        let text =
            format!("pool \"{pool}\" labels a type X = a[X*] from X to X script skip forest a[]");
        let sheet = assemble(&text).expect("a sheet");
        let bytes = encode(&sheet);
        assert_eq!(bytes.len() % 2, pool.len() % 2);
        assert_eq!(decode(&bytes), Some(sheet.clone()));
        assert_eq!(
            decode(&[&bytes[..], b"behind it"].concat()),
            Some(sheet.clone())
        );
        assert_eq!(decode(&bytes[..bytes.len() - 1]), None);
        assert_eq!(decode(&bytes[..25]), None);
        assert_eq!(unframe(&to_bundle(&sheet)), Some(sheet));
    }
}

#[test]
fn a_damaged_bundle_has_no_tables() {
    let bundle = to_bundle(&assemble("from () to () script skip").expect("a sheet"));
    assert_eq!(unframe(&bundle[..511]), None);
    assert_eq!(unframe(&[]), None);
    for at in [0, 2, 300, 511] {
        let mut damaged = bundle.clone();
        damaged[at] ^= 1;
        assert_eq!(unframe(&damaged), None, "{at}");
    }
}
