# shellcheck shell=bash
# What the scripts of large inputs share. A script says
#     . tests/program/sizes.sh
# after tests/lib.sh.
capture=samples/http-get.pcap

# same WHAT INPUT [ARGUMENT..]: a run over a file ends well and prints what stands in `expected`.
same() {
    local what=$1
    shift
    run "$@"
    verdict "$what" "$(well; difference "$work/expected" "$work/output")"
}

# refused WHAT LINE INPUT [ARGUMENT..]: a run over a file is refused with this line.
refused() {
    local what=$1 line=$2
    shift 2
    run "$@"
    verdict "$what" "$(refusal "$line")"
}

# whole WHAT NAME INPUT [ARGUMENT..]: a run over a capture stores what was worked out, NAME.report and NAME.delivered, and nothing else.
whole() {
    local what=$1 name=$2
    shift 2
    rm -rf "$work/stored"
    mkdir "$work/stored"
    run "$@" --out "$work/stored"
    verdict "$what, stored" "$(
        well
        silent output
        holds "$work/stored" 0000.pcap 0000.txt
        byte_difference "$work/$name.report" "$work/stored/0000.txt"
        byte_difference "$work/$name.delivered" "$work/stored/0000.pcap"
    )"
    rm -r "$work/stored"
}

# printed WHAT NAME INPUT [ARGUMENT..]: a run over a capture prints NAME.report, which was worked out.
printed() {
    local what=$1 name=$2
    shift 2
    run "$@"
    verdict "$what, printed" "$(well; byte_difference "$work/$name.report" "$work/output")"
}

# within WHAT SECONDS KILOBYTES EXPECTED FOUND INPUT [ARGUMENT..]: a run takes no more than this of processors and of addresses, and the file FOUND
# has then what stands in EXPECTED. Seconds are three times what was measured, and at least one: a body that goes through all for each takes more.
within() {
    local what=$1 expected=$4 found=$5
    rm -rf "$work/stored"
    mkdir "$work/stored"
    run_within "$2" "$3" "${@:6}"
    verdict "$what within $2 seconds and $3 KB" "$(well; byte_difference "$expected" "$found")"
}

# payloads FILE: those of all segments of a stored capture, one after another.
payloads() {
    perl -0777 -ne 'for (my $at = 24; $at < length; ) {
        my $len = unpack "x8 V", substr $_, $at, 16;
        print substr $_, $at + 70, $len - 54;
        $at += 16 + $len;
    }' "$1"
}
