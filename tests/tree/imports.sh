#!/usr/bin/env bash
# What crates take of one another beside contracts and definitions: lemmas of another crate's proofs. toxicap takes none, nor does any crate that it
# does not stand on (those above it, and the tests): these stand on public contracts, on the definitions that they cite, and on laws. The crates
# below it may share lemmas, and how many each takes is told.
# And whether the product's code calls each library that is to do its work: a name in crates.txt, an import or a clause is no call.
set -euo pipefail
cd "$(dirname "$0")/../.."
TOXICAP=true # no program is run, so none need be there
. tests/lib.sh
mapfile -t crates < <(sed -n 's/^\([a-z_]*\)[ :].*/\1/p' crates.txt)
below=" $(sed -n 's/^toxicap\( [^:]*\)\?: *//p' crates.txt) "

# taken CRATE FOLDER: what the files of a crate, which lie in this folder, name of the other crates of this repository but specs.
taken() {
    local others
    others=$(printf '%s\n' "${crates[@]}" | grep -vx "$1" | paste -sd '|')
    grep -rnoE --include='*.antt' --include='*.rt' "Rattle\.($others)\b(\.[a-z_]+)?|\b($others)::proofs\b.*" "$2"/{specs,proofs,src} 2> /dev/null |
        grep -v '\.specs$' || true
}

# planted FILE LINE: a line of a file is told, as toxicap may not have it.
planted() {
    rm -rf "$work/crate"
    mkdir -p "$work/crate"/{specs,proofs,src}
    echo "$2" > "$work/crate/$1"
    verdict "planted: $2" "$([ -n "$(taken toxicap "$work/crate")" ] || echo '  it is not told')"
}

planted proofs/Lemmas.antt 'use Rattle.conn_table.proofs.Peers.{class_is}'
planted proofs/Lemmas.antt 'use Rattle.conn_table as table'
planted specs/Words.antt 'use Rattle.pcap_records.proofs.Lists as lists'
planted src/lib.rt '    ghost use Rattle.conn_workers.proofs.TableConnections.{few_conns};'
planted src/lib.rt '#[tactic(auto, using(reassembly::proofs::MappedLists::map_same))]'
printf '%s\n' 'use Rattle.std.proofs.Common.{ap}' 'use Rattle.conn_table.specs.Tables.{conn_in}' 'use Rattle.toxicap.proofs.RowSteps' > "$work/crate/src/lib.rt"
verdict "std's lemmas, definitions, and a crate's own" "$(taken toxicap "$work/crate")"

echo "imports of other crates' lemmas, below toxicap:"
for crate in "${crates[@]}"; do
    if [[ $below = *" $crate "* ]]; then
        echo "  $crate $(taken "$crate" "crates/$crate" | wc -l)"
    else
        verdict "$crate" "$(taken "$crate" "crates/$crate")"
    fi
done

# What a call of each library looks like in src.
declare -A calls=(
    [atomic_table]='\bTable::\w+\(' [byteorder]='\b(Big|Little)Endian::\w+\(' [clap]='\bCommand::new\(' [hex]='\bhex::\w+\('
    [indexmap]='\bIndexMap::\w+\(' [itertools]='\.kmerge\(' [rand_pcg]='\bLcg64Xsh32::new\(' [serde_json]='\bValue::from_slice\('
    [thiserror]='#\[derive\(.*\bError\b'
)

# called LIBRARY FILE..: the lines of code in these files that call it, in those files that name it; comments and ghost items are none.
called() {
    grep -lE "^use $1::|${calls[$1]}" "${@:2}" | xargs -r grep -hE "${calls[$1]}" | grep -vE '^ *(//|ghost |use )' || true
}

printf '%s\n' '// hex::decode(text)' 'ghost use Rattle.hex.specs.Hex.{decode_of};' 'use hex::FromHexError;' 'use hex::decode;' > "$work/named.rt"
verdict 'planted: hex named, and not called' "$(called hex "$work/named.rt")"
mapfile -t product < <(find crates/*/src -name '*.rt' | grep -vE '^crates/(\w+_tests|worked_sessions|library_example|loop_example|old_answers)/')
for library in "${!calls[@]}"; do
    verdict "$library does work of the product" "$([ -n "$(called "$library" "${product[@]}")" ] || echo '  no code calls it')"
done
close
