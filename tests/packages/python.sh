# shellcheck shell=bash disable=SC2154
# The wheel: the same twice, installed, its calls, types, plugin and examples. tests/packages/packages.sh reads it.

# Python
if can "the wheel" python3; then
    host=python3
    for each in python3 /usr/bin/python3; do ! "$each" -c 'import pytest' 2> /dev/null || { host=$each; break; }; done
    the_same "the wheel, the same twice" release/wheel "$parts"
    wheel=$(echo "$made"/toxicap-*.whl)
    verdict "the wheel below 1.7 MB" "$(size "$wheel" 1700000)"
    newest=$(readelf --dyn-syms -W "$parts/lib/libtoxicap.so.1" | grep -oE 'GLIBC_[0-9.]+' | cat - <(echo GLIBC_2.17) | sort -Vu | tail -n 1)
    verdict "the C library that the wheel asks for" "$([ "$newest" = GLIBC_2.17 ] || echo "  $newest, and manylinux2014 has GLIBC_2.17")"
    verdict "what the wheel has" "$("$host" -B tests/packages/record.py "$wheel" 2>&1)"
    python=$work/venv/bin/python
    if ! "$host" -m venv --system-site-packages "$work/venv" > "$work/told" 2>&1; then
        skip "the wheel, installed by pip" "ensurepip is not here"
        rm -rf "$work/venv"
        "$host" -m venv --system-site-packages --without-pip "$work/venv"
        "$host" -B tests/packages/record.py "$wheel" "$("$python" -c 'import sysconfig; print(sysconfig.get_path("purelib"))')"
    else
        passes "the wheel, installed by pip" "$python" -m pip install --no-index --quiet --disable-pip-version-check "$wheel"
        passes "the command toxicap" "$work/venv/bin/toxicap" -V
        verdict "what the command prints" "$(grep -qx "toxicap $version" "$work/told" || cat "$work/told")"
        find "$work/venv/share/toxicap" -name __pycache__ -prune -exec rm -r {} +
        shared "the wheel" "$work/venv/share/toxicap"
        passes "a tool of the wheel" env -u TOXICAP "PATH=/usr/bin:/bin" \
            "$work/venv/bin/toxicap-explain" --capture "$work/share/samples/http-get.pcap" --scenario "$work/share/examples/limit_data.json"
        verdict "what the tool prints" "$(grep -q ': effect on 1 of 1 connection$' "$work/told" || cat "$work/told")"
        ! own_network "toxicap-record of the wheel" || passes "toxicap-record of the wheel" \
            "$work/venv/bin/toxicap-record" "$away/recorded.pcap" -- bash -c '! : < /dev/tcp/127.0.0.1/9'
        "$work/venv/bin/toxicap-redact" --text x > "$work/told" 2>&1 < /dev/null || true
        verdict "the name of a tool" "$(grep -q '^toxicap-redact: error: ' "$work/told" || cat "$work/told")"
    fi
    for sample in http-get shop; do
        for scenario in latency bandwidth redis-down slow-database; do
            folder=$away/$sample.pcap-$scenario.json
            mkdir "$folder"
            run /dev/null --capture "$away/$sample.pcap" --scenario "$away/$scenario.json" --host redis=10.77.0.3 --seed 7 --out "$folder"
        done
    done
    passes "calls of the package" "$python" -I -B - "$away" < tests/packages/calls.py
    verdict "calls of the package, compared" "$(grep -vx '8 outputs' "$work/told" || true)"
    block docs/use/python.md python 1 > "$away/example.py"
    block docs/use/python.md text 1 > "$work/expected"
    (cd "$away" && out_of_reach "$python" -B example.py > "$work/output" 2>&1) || true
    verdict "the package's example" "$(difference "$work/expected" "$work/output")"
    ended=0
    (cd "$away" && out_of_reach "$python" -m toxicap --capture shop.pcap --scenario redis-down.json > "$work/output" 2>&1) || ended=$?
    echo $ended >> "$work/output"
    printf '%s\n' 'refused 15 UnknownHost scenario 0 proxy 1' 1 > "$work/expected"
    verdict "python -m toxicap" "$(difference "$work/expected" "$work/output")"
    # the signals that the program would ignore: those that Python ignores are not among them
    cat > "$work/signals.py" << 'END'
import os, toxicap.__main__
replace = os.execv
os.execv = lambda path, words: replace("/bin/cat", ["cat", "/proc/self/status"])
toxicap.__main__.main()
END
    mask=$("$python" -I -B "$work/signals.py" | sed -n 's/^SigIgn:[[:blank:]]*//p') || mask=''
    verdict "python -m toxicap ends with a pipe" "$([ -n "$mask" ] && ((!(16#$mask & 16#1001000))) || echo "  ignored: $mask")"

    if can "the types of the package" mypy && "$python" -c 'import pytest' 2> /dev/null; then
        cp tests/packages/typed.py "$away"
        block docs/use/python.md 'python live' 1 > "$away/page_4.py"
        mypy=(mypy --strict --no-error-summary --cache-dir "$work/mypy" --python-executable "$python")
        for each in 1 2 3; do block docs/use/python.md python $each > "$away/page_$each.py"; done
        passes "the types of the package" "${mypy[@]}" "$away/typed.py" "$away"/page_?.py
        passes "the types in the package" "${mypy[@]}" -p toxicap
    fi
    if ! "$python" -c 'import pytest' 2> /dev/null; then
        skip "the plugin of pytest" "pytest is not here"
    else
        block docs/use/python.md python 2 > "$away/test_page.py"
        # tested STATUS LINE OPTION..: pytest ends so, and prints a line with this text.
        tested() {
            local ended=0
            (cd "$away" && out_of_reach "$python" -B -m pytest -q -p no:cacheprovider test_page.py "${@:3}") > "$work/told" 2>&1 || ended=$?
            { [ $ended = "$1" ] && grep -qF -- "$2" "$work/told"; } || { echo "  status $ended"; cat "$work/told"; }
        }
        verdict "pytest without golden files" "$(tested 1 'there is no golden file'; [ ! -e "$away/golden" ] || echo '  there is one now')"
        verdict "pytest --toxicap-update" "$(tested 0 '4 passed' --toxicap-update; holds "$away/golden" cut-off.pcap cut-off.txt)"
        verdict "pytest with golden files" "$(tested 0 '4 passed')"
        if "$python" -c 'import hypothesis' 2> /dev/null; then
            block docs/use/python.md python 3 > "$away/test_page.py"
            verdict "the page's test by hypothesis" "$(tested 0 '1 passed')"
        else
            skip "the page's test by hypothesis" "hypothesis is not here"
        fi
    fi
fi
