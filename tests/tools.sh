#!/bin/sh
# Runs the tools on the examples: compares what they write with stored texts, goes there and back,
# feeds broken texts, and interrupts a campaign.
# Usage: tests/tools.sh. Campaigns run the program that DEEPTRANS names, else the built one. What
# isn't installed is skipped with a line. Ends with `N passed, M failed`, status 0 where none failed.
set -u
top=$(CDPATH='' cd -- "$(dirname -- "$0")/.." && pwd) || exit 70
cd "$top" || exit 70
command -v python3 >/dev/null 2>&1 || {
    echo "skipped: python3 is missing"
    exit 0
}
program=${DEEPTRANS:-$top/crates/deeptrans/out/deeptrans}
work=$(mktemp -d) || exit 70
trap 'rm -rf "$work"' EXIT
export PYTHONDONTWRITEBYTECODE=1
stored=tests/tools
model=examples/two_level/model
image=examples/two_level/image
passed=0
failed=0

# count NAME STATUS: a test that ended with this status.
count() {
    if [ "$2" -eq 0 ]; then
        passed=$((passed + 1))
    else
        failed=$((failed + 1))
        echo "FAILED: $1"
    fi
}

# ok NAME WORD..: the command ends with status 0 and says nothing on standard error.
ok() {
    name=$1
    shift
    "$@" >"$work/got" 2>"$work/errors" && [ ! -s "$work/errors" ]
    count "$name" $?
}

# prints NAME FILE WORD..: it also prints just the file.
prints() {
    wanted=$2
    name=$1
    shift 2
    "$@" >"$work/got" 2>"$work/errors" && cmp -s "$work/got" "$wanted" && [ ! -s "$work/errors" ]
    count "$name" $?
}

# refused CAUSE WORD..: the command ends with status 2, says this on one line, and prints nothing.
refused() {
    cause=$1
    shift
    "$@" >"$work/got" 2>"$work/errors"
    refusal=$?
    cat "$work/errors" >>"$work/said"
    [ $refusal -eq 2 ] && [ ! -s "$work/got" ] && [ "$(wc -l <"$work/errors")" -eq 1 ] &&
        grep -qF -- "$cause" "$work/errors"
    count "refused: $cause" $?
}

# edited FILE SED: the file with an edit, for the next command.
edited() {
    sed "$2" "$1" >"$work/edited"
}

has() {
    command -v "$1" >/dev/null 2>&1 || {
        echo "skipped: $1 is missing"
        return 1
    }
}

# ---- each tool is one file of less than 300 lines, and explains itself

for tool in draw export campaign chart texts.py walks.py; do
    [ "$(wc -l <tools/$tool)" -lt 300 ]
    count "the length of $tool" $?
done
for words in draw export campaign chart "campaign plan" "campaign run" "export header"; do
    ok "help of $words" tools/$words --help
done

# ---- draw

prints 'a model with the walk of an image' $stored/two_level.dot tools/draw $model --image $image
prints 'a model with a listed walk' $stored/operators.dot \
    tools/draw $stored/operators --walk $stored/walks --access 1
sed 's/label="tests.tools.operators.naccess 1"/label="a model\\naccess 1"/' $stored/operators.dot >"$work/wanted"
prints 'a model from standard input' "$work/wanted" \
    tools/draw - --walk $stored/walks --access 1 <$stored/operators
ok 'every operator' tools/draw $stored/operators --image $stored/operators_image --dot "$work/dot"
for note in '= 0x5"' '= 0x10f5"' '= 0xfa"' '0x17d0 holds 0x3009"' '= 0x3005"'; do
    grep -qF "\\n$note" "$work/dot"
    count "a walk worked out by hand: $note" $?
done
if has dot; then
    ok 'an SVG' tools/draw $model --image $image --svg "$work/svg"
    grep -q '</svg>' "$work/svg"
    count 'an SVG is whole' $?
fi

# shows PICTURE MODEL IMAGE: each line of each label is in a stored picture.
shows() {
    tools/draw "$2" --image "$3" --dot "$work/dot" && python3 - "$1" "$work/dot" <<'END'
import html, json, re, sys
picture, dot = (open(name).read() for name in sys.argv[1:])
shown = [html.unescape(text).replace("\xa0", " ") for text in re.findall(r"<text[^>]*>(.*?)</text>", picture)]
graph, *others = [json.loads(label) for label in re.findall(r'label=("(?:[^"\\]|\\.)*")', dot)]
missing = [row for label in others for row in label.split("\n") if row not in shown]
sys.exit(bool(missing))
END
    count "the picture $1" $?
}
shows docs/two_level.svg $model $image
shows docs/sv39.svg examples/sv39/model examples/sv39/image
sed 's/0x80000001/0x80000000/' $image >"$work/faulty"
shows docs/two_level_fault.svg $model "$work/faulty"

# ---- export

sed 's/ *#.*//' $image >"$work/image"
prints 'an image as memh' $stored/two_level.memh tools/export memh $model $image
prints 'memh as an image' "$work/image" tools/export from-memh $model $image $stored/two_level.memh
prints 'an image with notes' $stored/two_level.notes tools/export notes $model $image
prints 'an image with notes is the same image' $stored/two_level.memh tools/export memh $model $stored/two_level.notes
sed 's/^word 0x2004.*/&\nword 0x2008 0x0/; s/0x80000001/0x80000000/' "$work/image" >"$work/faulty"
printf '%s\n' 'image 1' 'tables 0x1000 0x3000  # the bytes of table memory' 'context 0x1000        # context 0: root' \
    'access 0 0x401234     # access 0: its context, va; ends with fault 1, at absent' \
    'word 0x1004 0x2001    # first of access 0' 'word 0x2004 0x80000000  # second of access 0' \
    'word 0x2008 0x0       # read by no access' end >"$work/rows"
tr -s ' ' <"$work/rows" >"$work/wanted"
tools/export notes $model "$work/faulty" | tr -s ' ' >"$work/got"
cmp -s "$work/got" "$work/wanted"
count 'notes on a fault and on a word that nobody reads' $?
ok 'an image as a binary' tools/export binary $model $image "$work/binary"
[ "$(wc -c <"$work/binary")" -eq 8192 ]
count 'the size of a binary' $?
prints 'a binary as an image' "$work/image" tools/export from-binary $model $image "$work/binary"
sed 's/^word 0x1004.*/&\nword 0x1008 0x0/' "$work/image" >"$work/zero"
tools/export memh $model "$work/zero" "$work/memh"
prints 'a listed word of 0 stays' "$work/zero" tools/export from-memh $model "$work/zero" "$work/memh"
prints 'a word of 0 is left out' "$work/image" tools/export from-memh $model "$work/image" "$work/memh"
prints 'an image as C' $stored/two_level.h tools/export header $model $image
if has cc; then
    cp $stored/words.c $stored/two_level.h "$work"
    ok 'a C header compiles' cc -Wall -Werror "$work/words.c" -o "$work/words"
    grep '^word' "$work/image" >"$work/wanted"
    prints 'the words of a C header' "$work/wanted" "$work/words"
fi
if has iverilog && has vvp; then
    cp $stored/bench.v $stored/two_level.memh "$work"
    ok 'Icarus Verilog reads and writes memh' \
        sh -c "cd '$work' && iverilog -o bench bench.v && vvp -n bench"
    prints 'a memory dumped by Icarus Verilog' "$work/image" \
        tools/export from-memh $model $image "$work/dump.memh"
fi

# ---- broken texts

edited $model 's/ lost$/ first/'
refused 'edited: line 12: no later node is called `first`' tools/draw "$work/edited"
edited $model 's/(slice 31 22 va)/(slice 31 23 va)/'
refused 'line 11: the expression has 9 bits in place of 10' tools/draw "$work/edited"
edited $model 's/add root/add page/'
refused 'line 12: no register, input or variable is called `page`' tools/draw "$work/edited"
edited $model 's/^var leaf.*/var root 32/'
refused 'line 9: the name root was declared before' tools/draw "$work/edited"
edited $model '/^end/d'
refused 'line 19: the text ends before its line `end`' tools/draw "$work/edited"
edited $model 's/^node absent.*/node absent fault 1 2/'
refused 'line 17: `2` is too much' tools/draw "$work/edited"
edited $model 's/^model 1/model 2/'
refused 'line 2: the first line has to be `model 1`' tools/draw "$work/edited"
printf 'model 1\nword \351\n' >"$work/edited"
refused 'line 2: the byte 0xe9 outside a comment' tools/draw "$work/edited"
for edit in 's/^word 32/word x/=line 3: `x` is no number' \
    's/^word 32/word 33/=line 3: a word has 8, 16, 32 or 64 bits' \
    's/^reg root/reg 1root/=line 5: `1root` is no name' \
    's/^input va/inputs va/=line 6: no line `inputs` may stand here' \
    's/concat 20/cat 20/=line 12: `cat` is no operator' \
    's/(slice 0 0 table)/(slice 0 0 table va)/=line 13: `va` stands where `slice` has to end' \
    's/slice 0 0 leaf/slice 32 0 leaf/=line 15: `slice 32 0` doesn.t fit parts of [[]32[]] bits' \
    's/absent fault/absent faults/=line 17: `faults` is no act' \
    's/let index/let entry/=line 11: no variable is called `entry`' \
    's/^reg root.*/reg root 129/=line 5: 129 is out of range: from 0x1 to 0x80' \
    '/^node/d=the model has no node'; do
    edited $model "${edit%%=*}"
    tools/draw "$work/edited" >"$work/got" 2>"$work/errors"
    [ $? -eq 2 ] && grep -q "${edit#*=}" "$work/errors" && [ ! -s "$work/got" ]
    count "refused: ${edit#*=}" $?
    cat "$work/errors" >>"$work/said"
done
awk 'BEGIN { printf "model 1\nword 8 #%16380s\n", "" }' >"$work/edited"
refused 'line 2: more than 16384 bytes' tools/draw "$work/edited"
awk 'BEGIN { t = "1:0x1"; for (i = 0; i < 33; i++) t = "(not " t ")"
    print "model 1\nword 8\naddress 8\nlegal context " t }' >"$work/edited"
refused 'line 4: more than 32 operators one within the other' tools/draw "$work/edited"
edited $model '/^node start/d'
refused 'line 11: the walk comes here before index has a value' tools/draw "$work/edited" --image $image
refused 'No such file' tools/draw "$work/absent"
refused '`./deeptrans model @sv39` prints' tools/draw @sv39
refused 'it has no access 1' tools/draw $model --image $image --access 1
refused 'no whole walk of access 2 is listed' tools/draw $stored/operators --walk $stored/walks --access 2
edited $stored/walks 's/read table/read valid/'
refused 'line 4: the model has no read node `valid`' tools/draw $stored/operators --walk "$work/edited"
edited $stored/walks 's/refuse 13/outside 5/; s/^done.*/fault outside 5/'
refused 'no path leads from valid to outside' \
    tools/draw $stored/operators --walk "$work/edited" --access 1
for edit in 's/^word 0x2004/word 0x1004/=line 6: 0x1004 is out of range: from 0x1008' \
    's/^word 0x1004/word 0x1006/=line 5: 0x1006 isn.t a multiple of 4' \
    's/^access 0/access 1/=line 4: 1 is out of range' \
    's/^context 0x1000/context/=line 3: the line ends too early' \
    's/^tables 0x1000/tables 0x1001/=line 2: table memory has to rise from a multiple of 4 to another' \
    's/^tables 0x1000/tables 0x4000/=line 2: table memory has to rise' \
    's/^context 0x1000/context 0x1000 0x0/=line 3: `0x0` is too much' \
    's/^word 0x2004 0x80000001/word 0x2004 0x180000001/=line 6: 0x180000001 is out of range' \
    's/^word 0x2004/word 0x3000/=line 6: 0x3000 is out of range: from 0x1008 to 0x2ffc' \
    '/^tables/d=line 2: a line `tables` has to come first'; do
    edited "$work/image" "${edit%%=*}"
    tools/export memh $model "$work/edited" "$work/out" 2>"$work/errors"
    [ $? -eq 2 ] && grep -q "${edit#*=}" "$work/errors" && [ ! -e "$work/out" ]
    count "refused: ${edit#*=}" $?
    cat "$work/errors" >>"$work/said"
done
printf '@1\n2001 xxxxxxxx\n' >"$work/edited"
refused "line 2: \`xxxxxxxx\` isn't known" tools/export from-memh $model $image "$work/edited"
printf '@800\n2001\n' >"$work/edited"
refused 'line 2: the word number 0x800 lies behind' tools/export from-memh $model $image "$work/edited"
printf '/* a comment\n*/ 100000000\n' >"$work/edited"
refused 'line 2: `100000000` has more than 32 bits' tools/export from-memh $model $image "$work/edited"
printf 'zyx\n' >"$work/edited"
refused 'line 1: `zyx` is no word and no address' tools/export from-memh $model $image "$work/edited"
refused 'bytes, but table memory has 8192' \
    tools/export from-binary $model $image $stored/two_level.memh
printf 'model 1\nword 64\naddress 64\nnode a fault 1\nend\n' >"$work/whole_model"
printf 'image 1\ntables 0x0 0x10000000000000000\nend\n' >"$work/edited"
refused 'table memory has 2^64 bytes' tools/export header "$work/whole_model" "$work/edited"
refused 'too many for a binary' tools/export binary "$work/whole_model" "$work/edited"
refused 'is no name in C' tools/export header $model $image --name 2nd
cp $image "$work/kept"
tools/export from-binary $model $image $stored/bench.v "$work/kept" 2>/dev/null
cmp -s "$work/kept" $image
count 'what failed leaves its target alone' $?
# Without Graphviz and GNU parallel, and with a dot that fails.
python=$(python3 -c 'import sys; print(sys.executable)')
mkdir "$work/bin"
ln -s "$(command -v sh)" "$work/bin/sh"
refused "dot isn't installed" env PATH="$work/bin" "$python" tools/draw $model --svg "$work/svg"
printf '#!/bin/sh\necho no picture >&2\nexit 1\n' >"$work/bin/dot"
chmod +x "$work/bin/dot"
refused 'dot: no picture' env PATH="$work/bin" "$python" tools/draw $model --svg "$work/svg"
mkdir "$work/folder"
refused 'Is a directory' tools/export memh $model $image "$work/folder"
[ -z "$(find "$work" -mindepth 1 -name '*.[0-9]*')" ]
count 'nothing is left beside a target' $?

# ---- editor files

python3 - tools/editors/deeptrans.tmLanguage.json $model $image examples/two_level/mapped <<'END'
import json, re, sys
rules = [rule["match"] for rule in json.load(open(sys.argv[1]))["patterns"]]
lines = [line for name in sys.argv[2:] for line in open(name)]
sys.exit(not all(any(re.match(rule, line) for rule in rules) for line in lines))
END
count 'the TextMate grammar knows each line of the examples' $?
if has vim && vim --version | grep -q '+syntax'; then
    vim -es -u NONE -c "set runtimepath^=$top/tools/editors/vim" -c 'filetype on' -c 'syntax on' \
        -c "edit $model" -c 'let names = map([1, 6, 13, 24], "synIDattr(synID(12, v:val, 1), \"name\")")' \
        -c "call writefile([&filetype] + names, '$work/got')" -c 'qall!' >/dev/null 2>&1
    printf '%s\n' deeptrans deeptransLine deeptransNode deeptransAct deeptransOperator >"$work/wanted"
    cmp -s "$work/got" "$work/wanted"
    count 'the syntax file of Vim' $?
fi

# ---- campaigns

lists='examples/two_level/outside examples/two_level/mapped'

# columns FOLDER: the summary without seconds and memory.
columns() {
    cut -f 1-7 "$1/summary.tsv"
}

refused 'no campaign was planned there' tools/campaign run "$work/absent"
refused 'no such program' tools/campaign plan "$work/none" $model $lists --program "$work/absent"
refused 'absent: no such file' tools/campaign plan "$work/none" $model "$work/absent" --program sh
refused 'seeds: `x`: `x` is no decimal number below 2^64' tools/campaign plan "$work/none" $model $lists --program sh --seeds 1,x
refused 'seeds: `3-1` gives none' tools/campaign plan "$work/none" $model $lists --program sh --seeds 3-1
refused '1000002 runs, more than 1000000' tools/campaign plan "$work/none" $model $lists --program sh --seeds 1-500001
tabbed=$(printf '%s/a\tb' "$work")
cp $model "$tabbed"
refused 'a name with a tab or a line feed' tools/campaign plan "$work/none" "$tabbed" $lists --program sh
[ ! -e "$work/none" ]
count 'a refused plan leaves nothing' $?
ok 'a plan that no program is run for' tools/campaign plan "$work/planned" $model $lists --program sh
refused 'it exists; `run` goes on with a campaign' tools/campaign plan "$work/planned" $model $lists --program sh
refused 'runs are numbered from 1 to 2' tools/campaign one "$work/planned" 3
refused '2 of 2 runs have no result; first 1' tools/campaign sum "$work/planned"
refused "GNU parallel isn't installed" env PATH="$work/bin" "$python" tools/campaign run "$work/planned"
if ! [ -x "$program" ]; then
    echo "skipped: the program isn't built"
elif has parallel; then
    ok 'a plan' tools/campaign plan "$work/whole" $model $lists --seeds 1-3 --program "$program"
    refused '6 of 6 runs have no result' tools/campaign sum "$work/whole"
    ok 'a campaign' tools/campaign run "$work/whole" --jobs 2
    [ "$(columns "$work/whole" | wc -l)" -eq 7 ] &&
        "$program" solve $model examples/two_level/mapped 0 3 >"$work/wanted"
    status=$?
    cmp -s "$work/wanted" "$work/whole/runs/6/answer"
    count 'an answer is what the program prints' $?
    columns "$work/whole" | awk -F '\t' -v status=$status -v answer="$(head -n 1 "$work/wanted")" '
        $1 == 6 && $2 == "examples/two_level/mapped" && $3 == 3 && $4 == status && $5 == answer { found = 1 }
        END { exit !found }'
    count 'a row of the summary' $?

    # Run 4 hangs as long as the file `hold` is there; the campaign is stopped meanwhile.
    cat >"$work/slow" <<END
#!/bin/sh
if [ "\$1 \$3 \$5" = "solve examples/two_level/mapped 1" ]; then
    while [ -e "$work/hold" ]; do sleep 0.05; done
fi
exec "$program" "\$@"
END
    chmod +x "$work/slow"
    : >"$work/hold"
    ok 'a plan to be interrupted' \
        tools/campaign plan "$work/stopped" $model $lists --seeds 1-3 --program "$work/slow"
    tools/campaign run "$work/stopped" --jobs 1 >/dev/null 2>&1 &
    running=$!
    tries=0
    until [ -e "$work/stopped/runs/3" ] || [ $tries -eq 600 ]; do
        tries=$((tries + 1))
        sleep 0.1
    done
    kill "$running"
    wait "$running"
    count 'an interrupted campaign says so' $(($? != 1))
    [ "$(ls "$work/stopped/runs" | tr '\n' ' ')" = '1 2 3 ' ] && [ ! -e "$work/stopped/summary.tsv" ]
    count 'an interrupted campaign has what was done' $?
    cat "$work"/stopped/runs/*/row.json >"$work/before"
    rm "$work/hold"
    printf '1/:\n' >"$work/machines"
    ok 'a campaign goes on, over listed machines' \
        tools/campaign run "$work/stopped" --sshloginfile "$work/machines"
    columns "$work/stopped" >"$work/got"
    columns "$work/whole" | cmp -s - "$work/got"
    count 'it ends with the same table' $?
    cat "$work"/stopped/runs/[123]/row.json | cmp -s - "$work/before"
    count 'what was done is not done again' $?

    for n in 1 2; do "$program" make $n >"$work/make$n"; done
    ok 'a plan with generated lists' tools/campaign plan "$work/made" @sv39 "$work/make1" "$work/make2" \
        --seeds 1-2 --splits 10000 --program "$program"
    ok 'a campaign with generated lists' tools/campaign run "$work/made" --jobs 2
    [ "$(cut -f 5,7 "$work/made/summary.tsv" | sort | uniq -c | tr -s ' \t' ' ')" = " 1 answer judged
 4 image 1 satisfies" ]
    count 'each generated list has an image' $?

    ok 'a plan for Slurm' tools/campaign plan "$work/array" $model $lists --seeds 2 --program "$program"
    for task in 1 2; do
        ok "task $task of the array" env SLURM_ARRAY_TASK_ID=$task sh "$work/array/array.slurm"
    done
    ok 'the sum of an array' tools/campaign sum "$work/array"
fi

# ---- charts

prints 'the chart of a campaign' $stored/summary.svg tools/chart $stored/summary.tsv
edited $stored/summary.tsv '1s/judged/seen/'
refused 'line 1: no column `judged`' tools/chart "$work/edited"
edited $stored/summary.tsv '3s/\t[0-9]*$//'
refused 'line 3: 8 columns, 9 are named' tools/chart "$work/edited"
edited $stored/summary.tsv '4s/1\.5/long/'
refused 'line 4: no run of a campaign' tools/chart "$work/edited"
edited $stored/summary.tsv '2,$d'
refused 'chart: -: no run' tools/chart - <"$work/edited"

# ---- each refusal that the tools know was met above

python3 - "$work/said" tools/draw tools/export tools/campaign tools/chart tools/texts.py tools/walks.py <<'END'
import ast, re, sys
said = open(sys.argv[1]).read()

def pattern(text):
    """What a message begins and ends with, whatever its values are."""
    parts = text.values if isinstance(text, ast.JoinedStr) else [text]
    return "".join(re.escape(part.value) if isinstance(part, ast.Constant) else ".*" for part in parts)

def called(node):
    return getattr(node.func, "id", getattr(node.func, "attr", "")) if isinstance(node, ast.Call) else ""

unmet = [f"{name}: line {node.lineno}" for name in sys.argv[2:] for node in ast.walk(ast.parse(open(name).read()))
         if called(node) in ("Refused", "refuse") and pattern(node.args[0]) != ".*: line .*: .*"
         and not re.search(pattern(node.args[0]), said)]
print("\n".join(unmet), end="\n" if unmet else "")
sys.exit(bool(unmet))
END
count 'each refusal is met by a test' $?

echo "$passed passed, $failed failed"
[ "$failed" -eq 0 ]
