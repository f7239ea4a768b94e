#!/bin/sh
# Runs each command of the documents, and compares what it prints with what stands there: the lines
# behind `$` in the fenced blocks of the guide, of the other pages and of the examples.
# Usage: tests/guide.sh [--write] [DOCUMENT..]; with --write the documents get what the commands print
# now, which is due when the search finds other images. The program is the one that DEEPTRANS names,
# else the built one. The folder /tmp/deeptrans of the documents is one of this script's own.
# Ends with `N passed, M failed`, a document each, and status 0 where none failed.
set -u
top=$(CDPATH='' cd -- "$(dirname -- "$0")/.." && pwd) || exit 70
cd "$top" || exit 70
for tool in awk cmp diff mktemp python3; do
    command -v "$tool" >/dev/null 2>&1 || {
        echo "skipped: $tool is missing"
        exit 0
    }
done
program=${DEEPTRANS:-$top/crates/deeptrans/out/deeptrans}
[ -x "$program" ] || {
    echo "skipped: the program isn't built"
    exit 0
}
write=no
[ "${1-}" = --write ] && write=yes && shift
[ $# -gt 0 ] || set -- README.md docs/*.md examples/README.md
work=$(mktemp -d) || exit 70
trap 'rm -rf "$work"' EXIT
export PYTHONDONTWRITEBYTECODE=1
passed=0
failed=0

# printed DOCUMENT: the document, with what its commands print now.
printed() {
    awk -v program="$program" -v folder="$folder" '
        # what the command prints, both outputs, in the words of the documents
        function run(command, line) {
            gsub(/\.\/deeptrans/, program, command)
            gsub(/\/tmp\/deeptrans/, folder, command)
            command = "{ " command "\n} 2>&1 </dev/null"
            while ((command | getline line) > 0) {
                gsub(folder, "/tmp/deeptrans", line)
                print line
            }
            close(command)
        }
        /^```/ { inside = !inside; answer = 0 }
        inside && /^\$ / {
            command = substr($0, 3)
            print
            while (command ~ /\\$/ && (getline more) > 0) {
                print more
                command = substr(command, 1, length(command) - 1) more
            }
            run(command)
            answer = 1
            next
        }
        !answer { print }
    ' "$1"
}

for document; do
    folder=$work/$(echo "$document" | tr '/.' '__')
    mkdir "$folder" || exit 70
    printed "$document" >"$work/printed"
    if cmp -s "$document" "$work/printed"; then
        passed=$((passed + 1))
    elif [ "$write" = yes ]; then
        cp "$work/printed" "$document"
        echo "written: $document"
    else
        failed=$((failed + 1))
        echo "FAILED: $document doesn't print as it says"
        diff "$document" "$work/printed" | head -n 20
    fi
done

echo "$passed passed, $failed failed"
[ "$failed" -eq 0 ]
