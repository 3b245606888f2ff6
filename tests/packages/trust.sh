# shellcheck shell=bash disable=SC2154
# The bill of materials, the sums, a signature, and what was built in two clones. tests/packages/packages.sh reads it.

# trust: the bill of materials, the sums, and a signature by a key that is thrown away
if can "the bill of materials" python3; then
    the_same "the bill of materials, the same twice" release/sbom "$parts"
    verdict "a bill of no parts" "$(release/sbom "$work/none" "$work" > "$work/told" 2>&1 || true; grep -qF "$work/none: no toxicap-static that runs; " "$work/told" || cat "$work/told")"
    verdict "what the bill has" "$(python3 -B tests/packages/bill.py "$made/toxicap-$version.spdx.json" "$parts" 2>&1)"
fi
cp -r "$made" "$work/signed"
if can "a signature" minisign; then
    minisign -G -W -p "$work/key.pub" -s "$work/key" > "$work/told" 2>&1
    # checked STATUS: the signature and the sums are right, or (1) are not.
    checked() {
        local ended=0
        (cd "$work/signed" && minisign -q -V -m SHA256SUMS -p "$work/key.pub" && sha256sum --quiet -c SHA256SUMS) > "$work/told" 2>&1 || ended=1
        [ $ended = "$1" ] || { echo "  status $ended"; cat "$work/told"; }
    }
    verdict "a signature" "$(
        cd "$work"
        MINISIGN_KEY=key quiet "$repository/release/sums" signed > "$work/told"
        checked 0
        difference "$made/SHA256SUMS" "$work/signed/SHA256SUMS"
    )"
    for file in SHA256SUMS "toxicap_${version}_amd64.deb" "toxicap-$version-go.tar.gz"; do
        [ -e "$work/signed/$file" ] || continue
        cp "$work/signed/$file" "$work/kept"
        printf x >> "$work/signed/$file"
        verdict "a signature, $file changed" "$(checked 1)"
        cp "$work/kept" "$work/signed/$file"
    done
    verdict "a signature is removed without a key" "$(
        quiet release/sums "$work/signed" > "$work/told"
        [ ! -e "$work/signed/SHA256SUMS.minisig" ] || echo '  it is there'
    )"
fi

# what was built in two clones: it is the same, and where it is not, that shows
library=${LIBRARY:-$PWD/crates/toxicap_c/out/libtoxicap_c.a}
for each in one two; do
    mkdir -p "$work/$each/crates"/{toxicap_program,toxicap_c}/out
    cp "$program" "$work/$each/crates/toxicap_program/out/toxicap_program"
    cp "$program.o" "$work/$each/crates/toxicap_program/out/toxicap_program.o"
    cp "$library" "$work/$each/crates/toxicap_c/out/libtoxicap_c.a"
done
verdict "release/same of equal clones" "$(
    quiet release/same "$work/one" "$work/two" > "$work/told"
    [ "$(tail -n 1 "$work/told")" = '8 passed, 0 failed' ] || cat "$work/told"
)"
sed -i 's/Toxiproxy/toxiproxy/' "$work/two/crates/toxicap_program/out/toxicap_program"
rm "$work/two/crates/toxicap_c/out/libtoxicap_c.a"
verdict "release/same of others" "$(
    release/same "$work/one" "$work/two" > "$work/told" 2>&1 && echo '  it finds nothing'
    for line in 'crates/toxicap_program/out/toxicap_program: differs, ' '  sections: .rodata$' 'crates/toxicap_c/out/libtoxicap_c.a: there is no ' \
        'crates/toxicap_program/out/toxicap_program.o: the same, '; do
        grep -q "^$line" "$work/told" || { echo "  no line: $line"; cat "$work/told"; }
    done
)"
