# shellcheck shell=bash disable=SC2154
# The action for GitHub. tests/packages/packages.sh reads it.

# the action for GitHub: its step, as it stands, with the variables that a runner has. A file's URL stands for one of the web
if can "the action" python3 tar sha256sum curl && [ -e "$made/toxicap-$version-x86_64-linux.tar.gz" ]; then
    archive=toxicap-$version-x86_64-linux.tar.gz
    # step: the inputs of action.yml, and what its step runs.
    cat > "$work/step.py" << 'END'
import re, sys
text = open(sys.argv[1]).read()
inputs = re.findall(r"^  (\w+):$", text.split("\ninputs:\n")[1].split("\noutputs:\n")[0], re.MULTILINE)
handed = re.findall(r"^        (\w+): \$\{\{ inputs\.(\w+) \}\}$", text, re.MULTILINE)
print(*inputs, *(f"{name}={value}" for name, value in handed))
print(re.search(r"^      run: '(.*)'$", text, re.MULTILINE)[1])
END
    python3 -B "$work/step.py" "$work/share/examples/action/action.yml" > "$work/step" 2>&1 || true
    # shellcheck disable=SC2016
    printf '%s\n' 'archive sums key ARCHIVE=archive SUMS=sums KEY=key' '"$GITHUB_ACTION_PATH/install"' > "$work/expected"
    verdict "the action's inputs and its step" "$(difference "$work/expected" "$work/step")"
    # acts STATUS TEXT VARIABLE..: the step ends so, and prints a line with this text; where it fails, it leaves nothing.
    acts() {
        local ended=0
        rm -rf "$work/runner"
        mkdir -p "$work/runner/temp"
        touch "$work/runner/path" "$work/runner/output"
        (cd "$made" && out_of_reach env RUNNER_TEMP="$work/runner/temp" GITHUB_PATH="$work/runner/path" GITHUB_OUTPUT="$work/runner/output" \
            GITHUB_ACTION_PATH="$work/share/examples/action" SUMS='' KEY='' "${@:3}" \
            bash -e -c "$(tail -n 1 "$work/step")") > "$work/told" 2>&1 || ended=$?
        { [ $ended = "$1" ] && grep -qF -- "$2" "$work/told"; } || { echo "  status $ended"; cat "$work/told"; }
        [ "$1" = 0 ] || [ -z "$(ls -A "$work/runner/temp")$(cat "$work/runner/path" "$work/runner/output")" ] || echo '  it leaves something'
    }
    verdict "the action" "$(
        acts 0 "toxicap $version in " ARCHIVE="$archive"
        printf '%s\n' "folder=$(dirname "$(cat "$work/runner/path")")" "version=toxicap $version" > "$work/expected"
        difference "$work/expected" "$work/runner/output"
        [ "$("$(cat "$work/runner/path")/toxicap" -V)" = "toxicap $version" ] || echo '  it does not run'
        folder_difference "$work/share" "$(sed -n 's/^folder=//p' "$work/runner/output")/share/toxicap"
    )"
    verdict "the action, by a URL" "$(acts 0 "toxicap $version in " ARCHIVE="file://$made/$archive")"
    verdict "the action, by another URL" "$(acts 1 'is neither a path nor a URL with https' ARCHIVE="http://127.0.0.1/$archive")"
    sed '/x86_64-linux/s/^./x/' "$made/SHA256SUMS" > "$work/none-right"
    sed '/x86_64-linux/d' "$made/SHA256SUMS" > "$work/no-line"
    cp "$made/$archive" "$work/$archive"
    printf x >> "$work/$archive"
    { sha256sum /bin/sh; sed -n 's:  \(.*x86_64-linux\):  ../archive/\1:p' "$made/SHA256SUMS"; } > "$work/other-lines"
    verdict "the action, lines of other paths" "$(acts 1 'is not what SHA256SUMS says' ARCHIVE="$archive" SUMS="$work/other-lines")"
    cat "$made/SHA256SUMS" "$work/none-right" > "$work/two-lines"
    verdict "the action, two lines" "$(acts 1 'is not what SHA256SUMS says' ARCHIVE="$archive" SUMS="$work/two-lines")"
    verdict "the action, no sum" "$(acts 1 'is not what SHA256SUMS says' ARCHIVE="$archive" SUMS="$work/none-right")"
    verdict "the action, no line" "$(acts 1 'is not what SHA256SUMS says' ARCHIVE="$archive" SUMS="$work/no-line")"
    verdict "the action, another archive" "$(acts 1 'is not what SHA256SUMS says' ARCHIVE="$work/$archive" SUMS="$made/SHA256SUMS")"
    mkdir "$work/older"
    tar -C "$work/older" -xzf "$made/$archive"
    printf '#!/nowhere\n' > "$work/older/toxicap-$version-x86_64-linux/bin/toxicap"
    release/pack "$work/older" "$work/older/$archive" "toxicap-$version-x86_64-linux"
    (cd "$work/older" && sha256sum "$archive" > SHA256SUMS)
    verdict "the action, where toxicap does not run" "$(
        acts 0 "toxicap $version in " ARCHIVE="$work/older/$archive"
        [ "$("$(cat "$work/runner/path")/toxicap" -V)" = "toxicap $version" ] || echo '  toxicap-static is not in its place'
    )"
    verdict "the action, no archive" "$(acts 1 'could not be read' ARCHIVE=none.tar.gz)"
    if can "the action, a signature" minisign; then
        MINISIGN_KEY=$work/key release/sums "$work/signed" > "$work/told"
        key=$(tail -n 1 "$work/key.pub")
        minisign -G -W -p "$work/stranger.pub" -s "$work/stranger" > "$work/told" 2>&1
        verdict "the action, a signature" "$(acts 0 "toxicap $version in " ARCHIVE="$work/signed/$archive" KEY="$key")"
        verdict "the action, another's signature" "$(
            acts 1 'is not signed by this key' ARCHIVE="$work/signed/$archive" KEY="$(tail -n 1 "$work/stranger.pub")")"
        verdict "the action, no signature" "$(acts 1 'could not be read' ARCHIVE="$archive" KEY="$key")"
        sed -i '1s/^./x/' "$work/signed/SHA256SUMS"
        verdict "the action, signed sums changed" "$(acts 1 'is not signed by this key' ARCHIVE="$work/signed/$archive" KEY="$key")"
    fi
fi
