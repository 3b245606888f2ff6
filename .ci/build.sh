# What the gate compiles right after `rt ci` beside what that compiles, for scripts to source. What `rt ci` has proved and left in out/ stands
# below it: `rt lib` and `rt run` would prove all that from nothing once more.
kit=$(dirname "$(dirname "$(realpath "$(type -P rt)")")")

# build CRATE MAIN OUTPUT [WORD..]: proves a crate, whose first file is MAIN, and compiles what was proved. A library that it uses is a crate of this
# repository or one of the kit's. Ends with a line `N passed, M failed`.
build() {
    local crate=$1 main=$2 output=$3 library built log status=0
    cd "$(dirname "${BASH_SOURCE[0]}")/../crates/$crate"
    local words=(--crate-name "$crate" "$main" --extern "std=$kit/rlibs/std.rlib" -L "dependency=$kit/rlibs")
    for library in $(sed -n "s/^$crate\( [^:]*\)\?: *//p" ../../crates.txt); do
        built=../$library/out/rlib/$library.rlib
        [ -d "../$library" ] || built=$kit/rlibs/$library.rlib
        words+=(--extern "$library=$(realpath "$built")")
    done
    for built in "$PWD"/../*/out/rlib; do words+=(-L "dependency=$(realpath "$built")"); done
    words+=(--antt-project "$kit/rattle/logic/antt-project.json" --logic-built "$kit/logic_built" --jobs 2)
    words+=("${@:4}" --toolchain "$kit/toolchain" --backend llvm -o "$output")
    log=$(mktemp)
    "$kit/bin/rattle" build "${words[@]}" > "$log" 2>&1 || status=$?
    cat "$log"
    [ $status != 0 ] || grep -q '^logic=proved ' "$log" || status=1
    rm "$log"
    if [ $status = 0 ] && [ -s "$output" ]; then
        echo "1 passed, 0 failed"
    else
        echo "0 passed, 1 failed"
        return 1
    fi
}
