#!/usr/bin/env bash
# tools/fixtures: it makes fixtures and seals them, verify tells each change of what they are made of and of the files, make then puts them right. Then the
# hook for git, in a repository that is thrown away, and the steps of the workflow. It wants python3.
set -euo pipefail
cd "$(dirname "$0")/../.."
. tests/lib.sh
. tests/tools/project.sh

# made, the fixtures are those of examples/check
rm -r "$work/project/fixtures"
told_then_made "nothing yet" "added host redis" "added input captures/shop.pcap" "added input scenarios/redis-down.json" \
    "added input scenarios/slow-database.json" "added output redis-down.pcap" "added output redis-down.txt" "added output slow-database.pcap" \
    "added output slow-database.txt"
verdict "the files" "$(
    holds "$work/project/fixtures" manifest.json redis-down.pcap redis-down.txt slow-database.pcap slow-database.txt
    for name in redis-down slow-database; do
        difference "examples/$name.txt" "$work/project/fixtures/$name.txt"
        sum_difference "$(sed -n "s/  $name.pcap\$//p" examples/captures.sha256)" "$work/project/fixtures/$name.pcap"
    done
)"
sum() { sha256sum "$1" | cut -d ' ' -f 1; }
cat > "$work/manifest" << END
{
  "hosts": {
    "redis": "10.77.0.3"
  },
  "inputs": {
    "captures/shop.pcap": "$(sum samples/shop.pcap)",
    "scenarios/redis-down.json": "$(sum examples/redis-down.json)",
    "scenarios/slow-database.json": "$(sum examples/slow-database.json)"
  },
  "outputs": {
    "redis-down.pcap": "$(sed -n 's/  redis-down.pcap$//p' examples/captures.sha256)",
    "redis-down.txt": "$(sum examples/redis-down.txt)",
    "slow-database.pcap": "$(sed -n 's/  slow-database.pcap$//p' examples/captures.sha256)",
    "slow-database.txt": "$(sum examples/slow-database.txt)"
  },
  "program": "$version",
  "seed": 0
}
END
verdict "the manifest" "$(difference "$work/manifest" "$work/project/fixtures/manifest.json")"
before=$(stat -c %Y.%i "$work/project/fixtures")
fixtures make
verdict "made again: nothing is touched" "$(listed 0; [ "$before" = "$(stat -c %Y.%i "$work/project/fixtures")" ] || echo "  the folder is another")"
fixtures verify fixtures.json
verdict "a named file" "$(listed 0)"

# each change
project
edit scenarios/slow-database.json 's/1000/900/'
told_then_made "a changed scenario" "changed input scenarios/slow-database.json" "changed output slow-database.pcap" "changed output slow-database.txt"
project
echo >> "$work/project/scenarios/slow-database.json"
told_then_made "a scenario that does the same" "changed input scenarios/slow-database.json"
project
cp samples/http-get.pcap "$work/project/captures/shop.pcap"
told_then_made "a changed capture" "changed input captures/shop.pcap" "changed output redis-down.pcap" "changed output redis-down.txt" \
    "changed output slow-database.pcap" "changed output slow-database.txt"
project
edit fixtures.json 's/"seed": 0/"seed": 7/'
told_then_made "a changed seed" "changed seed 0 to 7" "changed output slow-database.pcap" "changed output slow-database.txt"
project
edit fixtures.json 's/10.77.0.3/10.77.0.4/'
told_then_made "a changed host" "changed host redis" "changed output redis-down.pcap" "changed output redis-down.txt" \
    "changed output slow-database.pcap" "changed output slow-database.txt"
project
edit fixtures.json 's/"redis"/"cache": "10.77.0.9", "redis"/'
told_then_made "a further host" "added host cache"
edit fixtures.json 's/"cache": "10.77.0.9", //'
told_then_made "a host less" "stale host cache"
project
echo edited >> "$work/project/fixtures/slow-database.txt"
told_then_made "an edited output" "changed output slow-database.txt"
verdict "an edited output is as it was" "$(folder_difference "$work/sealed" "$work/project")"
project
rm "$work/project/fixtures/redis-down.pcap"
told_then_made "a deleted output" "gone output redis-down.pcap"
verdict "a deleted output is there again" "$(folder_difference "$work/sealed" "$work/project")"
project
cp examples/latency.json "$work/project/scenarios"
edit fixtures.json 's|"scenarios/slow|"scenarios/latency.json", "scenarios/slow|'
told_then_made "a further scenario" "added input scenarios/latency.json" "added output latency.pcap" "added output latency.txt"
verdict "a further scenario moves no other" "$(
    rm "$work/project/fixtures/"{manifest.json,latency.*}
    diff -rq "$work/sealed/fixtures" "$work/project/fixtures" | grep -v '^Only in .*: manifest.json$' || true
)"
project
edit fixtures.json 's|, "scenarios/redis-down.json"||'
told_then_made "a scenario less" "stale input scenarios/redis-down.json" "stale output redis-down.pcap" "stale output redis-down.txt"
verdict "what is stale is gone" "$(holds "$work/project/fixtures" manifest.json slow-database.pcap slow-database.txt)"
project
edit fixtures/manifest.json "s/$version/toxicap 0.9.0/"
told_then_made "another version" "changed program toxicap 0.9.0 to $version"
project
edit fixtures/manifest.json 's/"slow-database.txt": "./"slow-database.txt": "g/'
told_then_made "another sum in the manifest" "changed output slow-database.txt"
project
cp samples/http-get.pcap "$work/project/captures/web 1.pcap"
edit fixtures.json 's|shop.pcap"|shop.pcap", "captures/web 1.pcap"|'
fixtures make
verdict "two captures" "$(
    fault 0
    holds "$work/project/fixtures" manifest.json shop-redis-down.pcap shop-redis-down.txt shop-slow-database.pcap shop-slow-database.txt \
        "web 1-redis-down.pcap" "web 1-redis-down.txt" "web 1-slow-database.pcap" "web 1-slow-database.txt"
    difference examples/slow-database.txt "$work/project/fixtures/shop-slow-database.txt"
)"

# The program beside the tool.
project
rm "$work/project/fixtures/redis-down.txt"
mkdir -p "$work/release/bin" "$work/release/share/toxicap/tools"
cp "$tools"/{fixtures,tool.py} "$work/release/share/toxicap/tools"
ln -s ../share/toxicap/tools/fixtures "$work/release/bin/toxicap-fixtures"
# beside: runs the tool of that release, with no toxicap on the path.
beside() {
    status=0
    (cd "$work/project" && env -u TOXICAP PATH="$(dirname "$(type -P python3)"):/usr/bin:/bin" "$work/release/bin/toxicap-fixtures" verify \
        > "$work/output" 2> "$work/faults") || status=$?
}
beside
verdict "no program beside it" "$(fault 2; told faults $'toxicap-fixtures: there is no program toxicap: put it on the path, or name it in TOXICAP\n')"
ln -s "$program" "$work/release/bin/toxicap"
beside
verdict "the program beside it" "$(listed 1 "gone output redis-down.txt")"

# the hook, in a repository of its own
# commit MESSAGE: commits what is staged; `status`, `output` and `faults` are as of `run`.
commit() {
    status=0
    git -C "$work/project" -c user.name=tester -c user.email=tester@example.org commit -q -m "$1" > "$work/output" 2> "$work/faults" || status=$?
}
slower=$'changed input scenarios/slow-database.json\nchanged output slow-database.pcap\nchanged output slow-database.txt
pre-commit: run tools/fixtures make, and add what it changes\n'
if can "the hook" git; then
    unset GIT_DIR GIT_WORK_TREE GIT_INDEX_FILE
    project
    mkdir "$work/project/tools"
    cp tools/{fixtures,tool.py} "$work/project/tools"
    git -C "$work/project" init -q
    mkdir -p "$work/project/.git/hooks"
    cp examples/hooks/pre-commit "$work/project/.git/hooks"
    git -C "$work/project" add .
    commit sealed
    verdict "the hook: a commit of what is sealed" "$(well; silent output)"
    edit scenarios/slow-database.json 's/1000/900/'
    git -C "$work/project" add scenarios
    commit changed
    verdict "the hook: a changed scenario" "$(fault 1; told faults "$slower")"
    fixtures make
    commit changed
    verdict "the hook: made, and not added" "$(fault 1; told faults "$slower")"
    git -C "$work/project" add fixtures
    edit scenarios/redis-down.json 's/false/true/'
    commit changed
    verdict "the hook: made and added, and another file changed since" "$(well; silent output)"
    verdict "the hook: what it leaves" "$(holds "$work/project" .git captures fixtures fixtures.json scenarios tools)"
fi

# the workflow: the step of its action (examples/action, which tests/packages/packages.sh tries) with what the workflow hands it, and its last step, with an
# archive that has the program
# step NUMBER WORD..: what a step of the workflow has, by the words that lead to it.
step() {
    python3 - "$examples/workflows/fixtures.yml" "$@" << 'END'
import functools, sys, yaml
print(functools.reduce(lambda value, word: value[word], sys.argv[3:], yaml.safe_load(open(sys.argv[1]))["jobs"]["verify"]["steps"][int(sys.argv[2])]))
END
}
if ! can "the workflow" tar sha256sum; then :
elif ! python3 -c 'import yaml' 2> /dev/null; then skip "the workflow" "Python's library yaml is not here"
else
    project
    mkdir -p "$work/project/tools" "$work/project/.github/actions" "$work/toxicap-1/bin"
    cp tools/{fixtures,tool.py} "$work/project/tools"
    cp -r examples/action "$work/project/.github/actions/toxicap"
    cp "$program" "$work/toxicap-1/bin/toxicap"
    tar -C "$work" -czf "$work/toxicap-1.tar.gz" toxicap-1
    verdict "the workflow: actions of others by their commits" "$(
        grep -rhE 'uses: ' "$examples"/{action,workflows} | grep -vE 'uses: (\./|[a-z]+/[a-z]+@[0-9a-f]{40} )' || true
    )"
    sums=$(step 1 with sums)
    action=$(step 1 uses)
    # steps: the steps after the checkout, each by a shell of its own, as on a runner.
    steps() {
        status=0
        rm -rf "$work/runner"
        mkdir "$work/runner"
        (
            cd "$work/project"
            export RUNNER_TEMP=$work/runner GITHUB_PATH=$work/runner/path
            ARCHIVE=$work/toxicap-1.tar.gz SUMS=$sums "$action/install" > "$work/got" &&
                PATH=$(cat "$GITHUB_PATH"):$PATH bash -e -c "$(step 2 run)"
        ) > "$work/output" 2> "$work/faults" || status=$?
    }
    (cd "$work" && sha256sum toxicap-1.tar.gz) > "$work/project/$sums"
    steps
    verdict "the workflow: what is sealed" "$(listed 0)"
    rm "$work/project/fixtures/redis-down.txt"
    steps
    verdict "the workflow: an output is gone" "$(listed 1 "gone output redis-down.txt")"
    sed -i 's/^./x/' "$work/project/$sums"
    steps
    verdict "the workflow: another archive" "$(fault 1; silent output)"
fi
close
