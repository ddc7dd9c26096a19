//! The copied files are the ones that were received, byte for byte.

mod sha256;

/// Each file below `oracle/` with its hash.
const FILES: [(&str, &str); 3] = [
    (
        "physical/src/circuit.rs",
        "1cd51e87f5c9440f1b32ec174707c9b0bb01eca95b843b53ba1aa4d87ad06cc2",
    ),
    (
        "physical/src/scene.rs",
        "26737f673f2042db4e5b7d0bcac40c03e902ef54fa14434c01655555e8295c91",
    ),
    (
        "translate/src/liveness.rs",
        "1ff8edde4944b1ae6e3c43e3881979daaddfacb9c5769d6852d569a6ed7be1b5",
    ),
];

#[test]
fn the_hash_is_right_on_published_examples() {
    assert_eq!(
        sha256::hex(b""),
        "e3b0c44298fc1c149afbf4c8996fb92427ae41e4649b934ca495991b7852b855"
    );
    assert_eq!(
        sha256::hex(b"abc"),
        "ba7816bf8f01cfea414140de5dae2223b00361a396177a9cb410ff61f20015ad"
    );
    assert_eq!(
        sha256::hex(b"abcdbcdecdefdefgefghfghighijhijkijkljklmklmnlmnomnopnopq"),
        "248d6a61d20638b8e5c026930c3e6039a33ce45964ff2167f6ecedd419db06c1"
    );
}

#[test]
fn the_copied_files_are_unchanged() {
    for (name, wanted) in FILES {
        let path = format!("{}/../../oracle/{name}", env!("CARGO_MANIFEST_DIR"));
        let bytes = std::fs::read(&path).unwrap_or_else(|fault| panic!("{name}: {fault}"));
        assert_eq!(sha256::hex(&bytes), wanted, "{name}");
    }
}
