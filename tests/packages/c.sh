# shellcheck shell=bash disable=SC2154
# The library for C by pkg-config and CMake, and its header. tests/packages/packages.sh reads it.

# C
cp clients/c/rehearse.{c,h} "$away"
cp -r "$parts"/{include,lib} "$away"
mkdir "$work/expected-files"
run /dev/null --capture samples/shop.pcap --scenario examples/bandwidth.json --scenario examples/latency.json --out "$work/expected-files"
# stored WHAT COMMAND..: the example in C, linked so, stores what the program does.
stored() {
    rm -rf "$work/files"
    mkdir "$work/files"
    verdict "$1" "$(
        cd "$work/files"
        quiet out_of_reach "${@:2}" "$away/shop.pcap" "$away/bandwidth.json" "$away/latency.json"
        folder_difference "$work/expected-files" "$work/files"
    )"
}
if can "the library by pkg-config" gcc pkg-config; then
    # shellcheck disable=SC2016
    passes "the library by pkg-config" env PKG_CONFIG_PATH="$away/lib/pkgconfig" bash -c 'cd "$0" && gcc -Wall -Wextra -Werror -o by-pkg-config \
        rehearse.c $(pkg-config --cflags --libs toxicap) "-Wl,-rpath,$(pkg-config --variable=libdir toxicap)"' "$away"
    stored "the library by pkg-config, run" "$away/by-pkg-config"
    told_version=$(PKG_CONFIG_PATH=$away/lib/pkgconfig pkg-config --modversion toxicap 2>&1 || true)
    verdict "the version that pkg-config tells" "$([ "$told_version" = "$version" ] || echo "  $told_version")"
fi
if can "the library by CMake" gcc cmake pkg-config; then
    mkdir "$away/cmake"
    cp tests/packages/CMakeLists.txt "$away/rehearse.h" "$away/rehearse.c" "$away/cmake"
    # shellcheck disable=SC2016
    passes "the library by CMake" env PKG_CONFIG_PATH="$away/lib/pkgconfig" bash -c 'cd "$0" && cmake -B build . && cmake --build build' "$away/cmake"
    stored "the library by CMake, run" "$away/cmake/build/rehearse"
fi

# the header's list of what the library calls, and its version, are compared with the library: others are refused
mkdir -p "$work/other/crates/toxicap_c" "$work/other/crates/command_line/src"
cp -r release "$work/other"
cp crates/command_line/src/texts.rt "$work/other/crates/command_line/src"
# other_header WHAT EDIT MESSAGE: a header that is changed so is refused with this message.
other_header() {
    verdict "a header with another $1" "$(
        ended=0
        cp -r crates/toxicap_c/include "$work/other/crates/toxicap_c"
        sed -i "$2" "$work/other/crates/toxicap_c/include/toxicap.h"
        LIBRARY=${LIBRARY:-$PWD/crates/toxicap_c/out/libtoxicap_c.a} "$work/other/release/library" "$work/none" > "$work/told" 2>&1 || ended=$?
        grep -q "$3" "$work/told" || ended=0
        { [ $ended = 2 ] && [ ! -e "$work/none" ]; } || cat "$work/told"
    )"
}
# shellcheck disable=SC2016
other_header "list of calls" '/It calls/s/`memmove`, //' 'libtoxicap.a calls others than the header says: .* memmove '
other_header version '/define TOXICAP_VERSION /s/$/1/' "toxicap.h has another version than $version"
