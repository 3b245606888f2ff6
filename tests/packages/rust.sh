# shellcheck shell=bash disable=SC2154
# The crate for Rust: its tests, and the example of its page. tests/packages/packages.sh reads it.

# Rust
if can "the crate for Rust" cargo rustc cc; then
    unpacked "toxicap-$version-rust.tar.gz"
    # in_crate COMMAND..: runs a command in the crate, without a network.
    in_crate() {
        (
            cd "$away/toxicap-$version-rust"
            export CARGO_TARGET_DIR=$work/target CARGO_NET_OFFLINE=true RUSTFLAGS='-D warnings' RUSTDOCFLAGS='-D warnings'
            out_of_reach "$@"
        )
    }
    in_crate cargo package --no-verify --offline --list --allow-dirty > "$work/output" 2> "$work/faults" || cat "$work/faults" >> "$work/output"
    sed -i '/^Cargo\.lock$/d' "$work/output"
    {
        printf '%s\n' Cargo.toml Cargo.toml.orig LICENCES.md README.md build.rs native/libtoxicap.a
        git ls-files clients/rust/src | cut -d / -f 3-
        (cd "$work" && find share -type f -printf 'share/toxicap/%P\n')
    } | LC_ALL=C sort > "$work/expected"
    LC_ALL=C sort -o "$work/output" "$work/output"
    shared "the crate" "$away/toxicap-$version-rust/share/toxicap"
    verdict "what the crate has" "$(difference "$work/expected" "$work/output")"
    verdict "the crate's example" "$(
        in_crate cargo test -q --offline > "$work/told" 2>&1 || cat "$work/told"
        grep -q '^test result: ok. 5 passed' "$work/told" || cat "$work/told"
    )"
    mkdir "$away/toxicap-$version-rust/tests"
    block docs/use/rust-and-c.md rust 1 > "$away/toxicap-$version-rust/tests/page.rs"
    cp samples/http-get.pcap "$away/toxicap-$version-rust"
    verdict "docs/use/rust-and-c.md" "$(in_crate cargo test -q --offline --test page > "$work/told" 2>&1 || cat "$work/told")"
    verdict "the crate's documentation" "$(quiet in_crate cargo doc -q --offline --no-deps)"
    if can "the crate's rust-version" cargo-clippy; then verdict "the crate's rust-version" "$(quiet in_crate cargo clippy -q --offline)"; fi
    rm -r "$away/toxicap-$version-rust/native"
    verdict "the crate without the library" "$(quiet in_crate cargo build -q --offline --no-default-features)"
fi
