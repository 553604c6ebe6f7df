#!/usr/bin/env bash
# Tests ./judge, the command for a person: what it reads, what it prints, its exit status, and that bad input gets no
# verdict. The programs asked are target/bin/judge_cli and draft_cli, built where needed, or those that JUDGE_PROGRAM and
# DRAFT_PROGRAM name.
set -uo pipefail
cd "$(dirname "$0")/.." || exit 1
root=$PWD
judge=$root/judge
work=$(mktemp -d) || exit 1
trap 'rm -rf "$work"' EXIT
here="$work/some folder" # names with a space on the way
mkdir "$here" "$work/temporary"
export TMPDIR=$work/temporary

passed=0
failed=0

ok() {
    passed=$((passed + 1))
}

wrong() {
    failed=$((failed + 1))
    printf 'FAILED %s\n' "$*"
}

# Runs a command; its output goes to $work/out and $work/err, its status to $status.
run() {
    "$@" >"$work/out" 2>"$work/err"
    status=$?
}

# says NAME LINE COMMAND..: it prints that line alone, on standard output, with the status that belongs to it.
says() {
    local name=$1 line=$2 wanted=1
    shift 2
    [[ $line = REFUSED* ]] || wanted=0
    run "$@"
    if printf '%s\n' "$line" | cmp -s - "$work/out" && ((status == wanted)); then
        ok
    else
        wrong "$name: wanted '$line' with status $wanted, got '$(head -n 3 "$work/out")' with status $status: $(head -n 3 "$work/err")"
    fi
}

# mum NAME TEXT COMMAND..: no verdict. Status 2, nothing on standard output, and a message that has TEXT in it.
mum() {
    local name=$1 text=$2
    shift 2
    run "$@"
    if ((status == 2)) && [[ ! -s $work/out ]] && grep -qF -- "$text" "$work/err"; then
        ok
    else
        wrong "$name: wanted status 2 and '$text' on standard error alone, got status $status, '$(head -n 3 "$work/out")', '$(head -n 3 "$work/err")'"
    fi
}

# from FILE COMMAND..: the command with that file as standard input
from() {
    local file=$1
    shift
    "$@" <"$file"
}

# within FOLDER COMMAND..: the command run in that folder
within() (
    cd "$1" && shift && "$@"
)

hex() {
    sed 's/#.*//' "$@" | grep -oE '[0-9A-F]{8}'
}

raw() {
    # shellcheck disable=SC2059 # the escapes are the format
    printf "$(hex "$@" | sed 's/../\\x&/g' | tr -d '\n')"
}

model=examples/timeline-model.hex
table=examples/timeline-table.hex
good='ACCEPTED 1 10 3'

# --- the examples print what their list says

rows=0
listed=
while IFS='|' read -r _ files command prints _; do
    [[ $command = *'`./judge '* ]] || continue
    command=${command//'`'/} prints=${prints//'`'/} # the cells, without their marks and outer spaces
    read -r prints <<<"$prints"
    read -ra words <<<"$command"
    says "example $command" "$prints" "${words[@]}"
    rows=$((rows + 1))
    listed+=$files
done <examples/README.md
if ((rows >= 7)); then ok; else wrong "examples/README.md lists only $rows commands"; fi
for file in examples/*.hex; do
    if [[ $listed = *"\`${file##*/}\`"* ]]; then ok; else wrong "$file is not listed in examples/README.md"; fi
    if [[ $(head -n 1 "$file") = '# '* ]]; then ok; else wrong "$file does not begin with a line on what it shows"; fi
done

# --- what a person may write

hex $model $table >"$here/words.hex"
says 'one word a line' "$good" "$judge" "$here/words.hex"
tr A-F a-f <"$here/words.hex" >"$here/lower.hex"
says 'lower case' "$good" "$judge" "$here/lower.hex"
tr '\n' ' ' <"$here/words.hex" >"$here/line.hex"
says 'one line, no line feed at its end' "$good" "$judge" "$here/line.hex"
printf %s "$(<"$here/words.hex")" >"$here/cut.hex"
says 'no line feed after the last word' "$good" "$judge" "$here/cut.hex"
sed 's/$/\r/' $model $table >"$here/crlf.hex"
says 'Windows line ends' "$good" "$judge" "$here/crlf.hex"
cat $model $table | tr '\n' '\r' >"$here/cr.hex"
says 'a carriage return alone ends a comment' "$good" "$judge" "$here/cr.hex"
sed 's/^/\t \f\v /; s/$/\n\n/' "$here/words.hex" >"$here/space.hex"
says 'all kinds of white space' "$good" "$judge" "$here/space.hex"
sed 's/^/0x/; s/$/,/' "$here/words.hex" >"$here/c.hex"
says '0x and commas' "$good" "$judge" "$here/c.hex"
sed 's/^/0X/' "$here/words.hex" | tr '\n' ';' >"$here/semicolons.hex"
says '0X and semicolons' "$good" "$judge" "$here/semicolons.hex"
sed 's/$/# 11111111/' "$here/words.hex" >"$here/hash.hex"
says 'comments after #' "$good" "$judge" "$here/hash.hex"
sed 's|$|// 11111111|' "$here/words.hex" >"$here/slash.hex"
says 'comments after //' "$good" "$judge" "$here/slash.hex"
sed 's/$/-- 11111111/' "$here/words.hex" >"$here/dash.hex"
says 'comments after --' "$good" "$judge" "$here/dash.hex"
sed 's/$/ # größer – “so”/' "$here/words.hex" >"$here/accents.hex"
says 'letters beyond ASCII in comments' "$good" "$judge" "$here/accents.hex"
{ printf '\xEF\xBB\xBF' && cat "$here/words.hex"; } >"$here/mark.hex"
says 'a byte order mark' "$good" "$judge" "$here/mark.hex"
cp "$here/words.hex" "$here/a=b \\n%s.hex"
says 'an odd file name' "$good" "$judge" "$here/a=b \\n%s.hex"
says 'standard input' "$good" from "$here/words.hex" "$judge" -
cp "$here/words.hex" "$here/-x"
says 'from another folder' "$good" within "$here" "$judge" ./-x
sed '5s/.*/50180FFD/; 16s/.*/A0000000/; 17d' "$here/words.hex" >"$here/blocked.hex"
says 'a blocked row' "$good" "$judge" "$here/blocked.hex"
sed '15s/.*/90000000/' "$here/words.hex" >"$here/low.hex"
says 'a value too low' 'REFUSED 19 4' "$judge" "$here/low.hex"
hex examples/split.hex | sed '42s/.*/B0000003/; 43s/.*/B0000002/' >"$here/parts.hex"
says 'the parts of a cut the wrong way round' 'REFUSED 53 11' "$judge" "$here/parts.hex"
hex examples/propulsion.hex | sed '19s/.*/90000002/' >"$here/outside.hex"
says 'a value too low for a landing outside' 'REFUSED 19 4' "$judge" "$here/outside.hex"
hex examples/propulsion.hex | sed '4s/$/\n51001003/; 19s/.*/90000002/' >"$here/inside.hex"
says 'a guard that keeps the landing inside' 'ACCEPTED 2 100 4' "$judge" "$here/inside.hex"
says 'a model and no table' 'REFUSED 11 0' "$judge" $model
says 'a table and no model' 'REFUSED 1 0' "$judge" $table
{ hex $model && yes 51001000 | head -n $((16384 - 11)); } >"$here/full.hex"
says '16,384 words' 'REFUSED 11 0' "$judge" "$here/full.hex"
{ cat "$here/full.hex" && echo 51001000; } >"$here/over.hex"
says '16,385 words' 'REFUSED 42 0' "$judge" "$here/over.hex"

# --- two files

hex $model >"$here/model"
hex $table >"$here/table"
says 'model and table' "$good" "$judge" "$here/model" "$here/table"
says 'the table from standard input' "$good" from "$here/table" "$judge" "$here/model" -
says 'the model from standard input' "$good" from "$here/model" "$judge" - "$here/table"
tr '\n' ' ' <"$here/model" | sed 's/ $//' >"$here/model.cut"
says 'a model with no line feed at its end' "$good" "$judge" "$here/model.cut" "$here/table"

# --- raw bytes

raw $model >"$here/model.bin"
raw $table >"$here/table.bin"
cat "$here/model.bin" "$here/table.bin" >"$here/both.bin"
cp "$here/both.bin" "$here/both.words"
says '.bin' "$good" "$judge" "$here/both.bin"
says '--bytes' "$good" "$judge" --bytes "$here/both.words"
says '--bytes and standard input' "$good" from "$here/both.bin" "$judge" --bytes -
says 'two files of bytes' "$good" "$judge" "$here/model.bin" "$here/table.bin"
says 'hex and then bytes' "$good" "$judge" "$here/model" "$here/table.bin"
cp "$here/table.bin" "$here/table.words"
says '--bytes for the second file alone' "$good" "$judge" "$here/model" --bytes "$here/table.words"
says '--bytes for both files' "$good" "$judge" --bytes "$here/model.bin" "$here/table.words"
head -c 43 "$here/both.bin" >"$here/odd.bin"
says 'bytes that are no whole words' 'REFUSED 41 0' "$judge" "$here/odd.bin"
head -c 43 "$here/table.bin" >"$here/odd-table.bin"
says 'a table of bytes that are no whole words' 'REFUSED 41 0' "$judge" "$here/model.bin" "$here/odd-table.bin"
: >"$here/empty.bin"
says 'no bytes' 'REFUSED 1 0' "$judge" "$here/empty.bin"
says 'no bytes of a model' 'REFUSED 1 0' "$judge" "$here/empty.bin" "$here/table.bin"
head -c 65536 /dev/zero >"$here/zeros.bin"
says '65,536 bytes' 'REFUSED 1 0' "$judge" "$here/zeros.bin"
head -c 65537 /dev/zero >"$here/more.bin"
says '65,537 bytes' 'REFUSED 42 0' "$judge" "$here/more.bin"
says 'many more bytes' 'REFUSED 42 0' from <(head -c 9999999 /dev/zero) "$judge" --bytes -
says 'a long model of bytes' 'REFUSED 42 0' "$judge" "$here/zeros.bin" "$here/table.bin"
says 'a longer one' 'REFUSED 42 0' "$judge" --bytes <(head -c 80000 /dev/zero) "$here/table.bin"

# --- bad input gets a message and no verdict

mum 'a file that is not there' 'absent.hex: no such file' "$judge" "$here/absent.hex"
mum 'a second file that is not there' 'absent.hex: no such file' "$judge" "$here/model" "$here/absent.hex"
mum 'an empty name' 'no such file' "$judge" ''
mum 'a folder' 'some folder: a folder' "$judge" "$here"
mum 'a folder for bytes' 'some folder: a folder' "$judge" --bytes "$here"
if ((EUID)); then # root may read everything
    cp "$here/words.hex" "$here/closed.hex" && chmod 0 "$here/closed.hex"
    mum 'a file that may not be read' 'closed.hex: may not be read' "$judge" "$here/closed.hex"
fi

# bad NAME TEXT WORDS: the words in a file, refused with TEXT
bad() {
    printf '%b' "$3" >"$here/bad.hex"
    mum "$1" "$2" "$judge" "$here/bad.hex"
}
mum 'the file is named' 'README.md: line 3: "Each"' "$judge" examples/README.md
bad 'prose' 'bad.hex: line 1: "Hello"' 'Hello there\n'
bad 'the line and the text are named' 'bad.hex: line 3: "2000O000"' '# a\n1110000A\n2000O000\n'
bad 'lines are counted with Windows line ends' 'line 3: "zz"' '1110000A\r\n\r\nzz\r\n'
bad 'lines are counted with carriage returns' 'line 3: "zz"' '1110000A\r\rzz\r'
bad 'seven digits' '"5100100" has 7 hex digits' '1110000A 5100100\n'
bad 'nine digits' '"510010000" has 9 hex digits' '1110000A 510010000\n'
bad 'two words with nothing between them' '"1110000A20000000" has 16 hex digits' '1110000A20000000\n'
bad 'seven digits after 0x' '"0x5100100" has 7 hex digits' '0x5100100\n'
bad '0x twice' '"0x0x51001000" is not a word' '0x0x51001000\n'
bad '0x alone' '"0x" has 0 hex digits' '0x\n'
bad 'a word cut by a line break' '"5100" has 4 hex digits' '1110000A 5100\n1000\n'
bad 'a word cut by a comma' '"5100" has 4 hex digits' '5100,1000\n'
bad 'a sign' '"-"' '1110000A - head\n'
bad 'labels' '"M:"' 'M: 1110000A\n'
bad 'a full stop' '"51001000."' '51001000.\n'
bad 'a letter beyond ASCII' 'line 1: "' '1110000\xC3\x84\n'
bad 'bad text after a good pair' 'line 23: "end"' "$(<"$here/words.hex")\nend\n"
bad 'a long text is cut' "$(printf '"%040d.."' 0)" "$(printf %0400d 0)\n"
bad 'empty' 'no words' ''
bad 'blank lines' 'no words' '\n \t\r\n'
bad 'comments alone' 'no words' '# 1110000A\n// 20000000\n-- 51001003'
bad 'a NUL byte' 'NUL' '1110000A \0000 20000000\n'
bad 'a NUL byte in a comment' 'NUL' '1110000A # \0000\n'
{ printf '\xFF\xFE' && sed 's/./&\x00/g; s/$/\x00/' "$here/words.hex"; } >"$here/utf16.hex"
mum 'UTF-16' 'UTF-16' "$judge" "$here/utf16.hex"
bad 'the mark of UTF-16 alone' 'line 1: ' '\xFF\xFE'
mum 'bytes taken for text' 'NUL' from "$here/both.bin" "$judge" -
mum 'bad text from standard input' 'standard input: line 1: "zz"' from <(echo zz) "$judge" -
mum 'nothing from standard input' 'standard input: no words' from /dev/null "$judge" -
mum 'standard input twice' 'no words' from "$here/model" "$judge" - -
echo zz >"$here/zz"
mum 'a bad table' 'zz: line 1: "zz"' "$judge" "$here/model" "$here/zz"
mum 'a bad model' 'zz: line 1: "zz"' "$judge" "$here/zz" "$here/table"
mum 'no words of a table' 'no words' "$judge" "$here/model" /dev/null
mum 'a model with a table behind it' 'words.hex: word 11 (from 0) is of kind 7' "$judge" "$here/words.hex" "$here/table"
mum 'the same in bytes' 'both.bin: word 11 (from 0) is of kind 7' "$judge" "$here/both.bin" "$here/table.bin"
mum 'table and model the wrong way round' 'table: word 0 (from 0) is of kind 7' "$judge" "$here/table" "$here/model"
mum 'a table that does not begin with kind 7' 'model: does not begin with a word of kind 7' "$judge" "$here/model" "$here/model"
sed 1d "$here/table" >"$here/headless"
mum 'a table without its head' 'headless: does not begin with a word of kind 7' "$judge" "$here/model" "$here/headless"
mum 'no bytes of a table' 'empty.bin: does not begin with a word of kind 7' "$judge" "$here/model" "$here/empty.bin"
head -c 43 "$here/model.bin" >"$here/odd-model.bin"
{ printf '\x70' && cat "$here/table.bin"; } >"$here/shifted.bin"
mum 'a model of bytes that are no whole words' 'odd-model.bin: 43 bytes are not whole words' \
    "$judge" "$here/odd-model.bin" "$here/shifted.bin"
mum 'no file' 'usage:' "$judge"
mum 'three files' 'usage:' "$judge" "$here/model" "$here/table" "$here/table"
mum '--bytes and no file' 'usage:' "$judge" --bytes
mum '--bytes after the file' 'usage:' "$judge" "$here/both.words" --bytes
mum 'an unknown option' '--bits: no such option' "$judge" --bits "$here/words.hex"
mum 'a verdict that cannot be written' 'could not be written' bash -c '"$@" >/dev/full' - "$judge" "$here/words.hex"

for option in --help -h; do
    run "$judge" $option
    if ((status == 0)) && grep -q '^usage: ./judge FILE' "$work/out" && grep -q 'judge --draft MODEL' "$work/out" && [[ ! -s $work/err ]]; then
        ok
    else
        wrong "$option: wanted the usage on standard output with status 0, got status $status"
    fi
done

# --- drafts

# drafts NAME B NODES MODEL COMMAND..: it prints a table that the judge accepts for the model, with b = B and so many nodes, and says so in its
# first line.
drafts() {
    local name=$1 b=$2 nodes=$3 of=$4
    shift 4
    run "$@"
    if ((status != 0)) || ! head -n 1 "$work/out" | grep -q "^# drafted in .*: $nodes nodes\?, .* certifies $b / 1000000$"; then
        wrong "$name: wanted a draft that says $b / 1000000, got '$(head -n 1 "$work/out")' with status $status: $(head -n 3 "$work/err")"
        return
    fi
    cp "$work/out" "$here/drafted.hex"
    says "$name, judged" "ACCEPTED $b 1000000 $nodes" "$judge" "$of" "$here/drafted.hex"
}
drafts 'two rounds' 100000 3 $model "$judge" --draft $model 2
if cmp -s "$here/drafted.hex" examples/draft.hex; then ok; else wrong 'examples/draft.hex is not what ./judge --draft prints'; fi
if [[ $(grep -c '^# node ' examples/draft.hex) = 3 ]] &&
    grep -qx '# node 0: location 0, value 100000 / 1000000, rows: action 0 to nodes 1, 2' examples/draft.hex; then
    ok
else
    wrong 'the nodes of examples/draft.hex have no comment'
fi
drafts 'no round' 1000000 3 $model "$judge" --draft $model 0
drafts 'one round' 1000000 3 $model "$judge" --draft $model 1
for rounds in 3 002 18446744073709551617 99999999999999999999; do
    drafts "$rounds rounds" 100000 3 $model "$judge" --draft $model $rounds
done
# SLOW of cases/draft/rounds.txt, whose value falls in every round: more than one byte of the number counts, and 1000 is the last one
printf '%s\n' 1110FFFF 20000000 30000000 4010FFFE 40110001 20000000 60000000 51001000 >"$here/slow"
for rounds in 255:996190 256:996175 999:985030 1000:985015 1001:985015; do
    IFS=: read -r rounds b <<<"$rounds"
    drafts "$rounds rounds, slow" "$b" 2 "$here/slow" "$judge" --draft "$here/slow" "$rounds"
done
drafts 'no number of rounds' 985015 2 "$here/slow" "$judge" --draft "$here/slow"
if grep -q '^# drafted in 1000 rounds' "$here/drafted.hex"; then ok; else wrong 'without a number there are not 1000 rounds'; fi
drafts 'bounds of all kinds' 660000 20 tests/drafted/model.hex "$judge" --draft tests/drafted/model.hex 3
if cmp "$here/drafted.hex" tests/drafted/table.hex; then ok; else wrong 'tests/drafted/table.hex is not what ./judge --draft prints'; fi
# The longest draft that there can be, of WIDE in cases/draft/lent.txt.
{
    printf '%s\n' 11400004 20000000 5100103F 52001001
    for ((action = 0; action < 32; action++)); do printf '%s\n' 30000000 40E00001 40E00001 40E00001 40E00001; done
    printf '%s\n' 60000000 51001000 52001000 53001000 54001000
} >"$here/longest"
drafts 'the longest draft' 1000000 64 "$here/longest" "$judge" --draft "$here/longest"
if grep -q '64 nodes, 9602 words' "$here/drafted.hex"; then ok; else wrong 'the longest draft does not have 9602 words'; fi
drafts 'a model of bytes' 100000 3 $model "$judge" --draft "$here/model.bin" 2
cp "$here/model.bin" "$here/model.words"
drafts '--bytes' 100000 3 $model "$judge" --draft --bytes "$here/model.words" 2
drafts '--bytes first' 100000 3 $model "$judge" --bytes --draft "$here/model.words" 2
drafts 'standard input' 100000 3 $model from $model "$judge" --draft - 2
# as --help has it
handed() {
    "$judge" "$1" <("$judge" --draft "$1" 2)
}
says 'handed from one to the other' 'ACCEPTED 100000 1000000 3' handed $model
for file in message:100000:7 propulsion:200000:5 split:200000:9; do # what is certified without a cut, where one helps
    IFS=: read -r file b nodes <<<"$file"
    hex "examples/$file.hex" | sed '/^7/,$d' >"$here/$file"
    drafts "a draft for $file" "$b" "$nodes" "$here/$file" "$judge" --draft "$here/$file"
done
sed '5s/.*/50180FFD/' "$here/model" >"$here/blocked"
drafts 'a blocked row' 0 1 "$here/blocked" "$judge" --draft "$here/blocked"
if grep -q 'rows: action 0 blocked$' "$here/drafted.hex"; then ok; else wrong 'a blocked row of a draft is not named'; fi
hex examples/propulsion.hex | sed '/^7/,$d; 9s/.*/51000FFF/' >"$here/nowhere" # every landing of an edge is outside
drafts 'an empty zone' 200000 3 "$here/nowhere" "$judge" --draft "$here/nowhere"
if grep -q '51000FFF  # nothing$' "$here/drafted.hex"; then ok; else wrong 'an empty zone of a draft is not named'; fi
printf '%s\n' 11200001 20000000 51001001 30000000 50100FFF 40100001 60000000 51001000 52001000 >"$here/ticking"
says 'a 65th node' 'REFUSED 58 0' "$judge" --draft "$here/ticking"
sed '3s/.*/51001FFF/; 5s/.*/50100001/' "$here/ticking" >"$here/far"
says 'a bound too far' 'REFUSED 59 0' "$judge" --draft "$here/far" 0
sed '7s/.*/40020002/' "$here/model" >"$here/weights"
says 'a refused model' 'REFUSED 4 7' "$judge" --draft "$here/weights"
says 'a model of odd bytes' 'REFUSED 41 0' "$judge" --draft "$here/odd.bin"
{ cat "$here/model.bin" && printf '\x70'; } >"$here/odd7.bin"
says 'a model and a byte that is no word of kind 7' 'REFUSED 41 0' "$judge" --draft "$here/odd7.bin"
says 'no bytes of a model to draft for' 'REFUSED 1 0' "$judge" --draft "$here/empty.bin"
says 'a model of 65,536 bytes' 'REFUSED 1 0' "$judge" --draft "$here/zeros.bin"
says 'a model of 65,537 bytes' 'REFUSED 42 0' "$judge" --draft "$here/more.bin"
says 'a model of 16,385 words' 'REFUSED 42 0' "$judge" --draft "$here/over.hex"
mum 'to draft for a model with a table behind it' 'words.hex: word 11 (from 0) is of kind 7' "$judge" --draft "$here/words.hex"
mum 'the same in bytes, with rounds' 'both.bin: word 11 (from 0) is of kind 7' "$judge" --draft "$here/both.bin" 2
mum 'to draft for a table' 'table: word 0 (from 0) is of kind 7' "$judge" --draft "$here/table"
mum 'to draft for a table from standard input' 'standard input: word 0 (from 0) is of kind 7' bash -c '"$1" --draft - <"$2"' - "$judge" "$here/table"
mum 'no model' 'usage:' "$judge" --draft
mum 'no model but --bytes' 'usage:' "$judge" --draft --bytes
mum 'three names' 'usage:' "$judge" --draft $model 2 3
mum 'a model that is not there' 'absent.hex: no such file' "$judge" --draft "$here/absent.hex"
mum 'a model of prose' 'README.md: line 3: "Each"' "$judge" --draft examples/README.md
for rounds in two 1.5 0x10 +2 -5 -1.5 '' '2 3' $table; do
    mum "'$rounds' rounds" "$rounds: no number of rounds" "$judge" --draft $model "$rounds"
done
mum 'an unknown option behind a model' '-x: no such option' "$judge" --draft $model -x
mum 'a number for the model' '-5: no such option' "$judge" --draft -5
mum 'a draft that cannot be written' 'could not be written' bash -c '"$@" >/dev/full' - "$judge" --draft $model

# drafter NAME TEXT SCRIPT: the script as the program that drafts
drafter() {
    printf '#!/usr/bin/env bash\n%s\n' "$3" >"$here/drafter" && chmod +x "$here/drafter"
    mum "a drafting program that $1" "$2" env DRAFT_PROGRAM="$here/drafter" "$judge" --draft $model
}
hex examples/draft.hex >"$here/draft.lines"
drafter 'fails' 'failed with status 3' 'echo REFUSED 1 0; exit 3'
drafter 'prints nothing' 'did not print a draft' 'true'
drafter 'prints a verdict' 'did not print a draft' 'echo ACCEPTED 1 10 3'
drafter 'refuses with a word too many' 'did not print a draft' 'echo REFUSED 1 0 0'
drafter 'refuses twice' 'did not print a draft' 'echo REFUSED 1 0; echo REFUSED 1 0'
drafter 'refuses and ends no line' 'one line' 'printf "REFUSED 1 0"'
drafter 'refuses and drafts' 'did not print a draft' "echo REFUSED 1 0; cat '$here/draft.lines'"
drafter 'stops short' 'did not print a draft' "head -n 15 '$here/draft.lines'"
drafter 'stops within a word' 'did not print a draft' "head -c 140 '$here/draft.lines'"
drafter 'ends no line' 'did not print a draft' "head -c 143 '$here/draft.lines'"
drafter 'prints lower case' 'did not print a draft' "tr A-F a-f <'$here/draft.lines'"
drafter 'prints a NUL byte' 'did not print a draft' "cat '$here/draft.lines'; printf '\\0'"
drafter 'prints an empty line' 'did not print a draft' "cat '$here/draft.lines'; echo"
drafter 'prints a draft twice' 'did not print a draft' "cat '$here/draft.lines' '$here/draft.lines'"
drafter 'leaves out a successor' 'did not print a draft' "sed 7d '$here/draft.lines'"
drafter 'writes two words on a line' 'did not print a draft' "paste -d '' - - <'$here/draft.lines'"
mum 'a drafting program that is not there' 'no such program' env DRAFT_PROGRAM="$here/absent" "$judge" --draft $model

# --- a program that fails gives no verdict

# program NAME TEXT SCRIPT: the script as the program
program() {
    printf '#!/usr/bin/env bash\n%s\n' "$3" >"$here/program" && chmod +x "$here/program"
    mum "a program that $1" "$2" env JUDGE_PROGRAM="$here/program" "$judge" "$here/words.hex"
}
program 'fails' 'failed with status 3' 'echo ACCEPTED 1 10 3; exit 3'
program 'is killed' 'failed with status 137' 'kill -9 $$'
program 'prints nothing' 'did not print a verdict' 'true'
program 'prints something else' 'did not print a verdict' 'echo ACCEPTED'
program 'prints a word too many' 'did not print a verdict' 'echo ACCEPTED 1 10 3 4'
program 'prints two lines' 'did not print a verdict' 'echo ACCEPTED 1 10 3; echo REFUSED 1 0'
program 'prints an empty line too' 'one line' 'echo REFUSED 1 0; echo'
program 'ends no line' 'one line' 'printf "ACCEPTED 1 10 3"'
program 'prints a NUL byte' 'one line' 'printf "REFUSED 1 0\0\n"'
program 'refuses with a word too many' 'did not print a verdict' 'echo REFUSED 1 0 0'
mum 'a program that is not there' 'no such program' env JUDGE_PROGRAM="$here/absent" "$judge" "$here/words.hex"
mum 'a program that is no program' 'no such program' env JUDGE_PROGRAM="$here/model" "$judge" "$here/words.hex"
printf '#!/usr/bin/env bash\necho REFUSED 7 5\n' >"$here/program"
says 'JUDGE_PROGRAM by its name alone' 'REFUSED 7 5' within "$here" env JUDGE_PROGRAM=program "$judge" words.hex

# --- the program is built where it is missing or older than a source: a copy of the script with a stand-in for rt

real=${JUDGE_PROGRAM:-$root/target/bin/judge_cli}
real_drafter=${DRAFT_PROGRAM:-$root/target/bin/draft_cli}
copy="$work/a copy"
tools="$work/tools"
mkdir -p "$copy/crates/judge_cli/src" "$copy/crates/draft_cli" "$copy/tools" "$tools" "$work/with"
cp "$judge" "$copy/judge"
cp "$root/tools/build.sh" "$copy/tools/build.sh"
touch "$copy/crates.txt" "$copy/crates/judge_cli/src/main.rt"
for tool in awk bash cat dirname env head mkdir mktemp od readlink rm tail touch tr wc; do
    ln -s "$(type -P $tool)" "$tools/$tool"
done
cat >"$work/with/rt" <<END
#!/usr/bin/env bash
echo "said by rt in \$PWD: \$*"
echo run >>"$work/runs"
[[ ! -e "$work/broken" ]] || exit 1
[[ ! -e "$work/lazy" ]] || exit 0
mkdir -p out
case \${PWD##*/} in
judge_cli) cp "$real" out/judge_cli ;;
draft_cli) cp "$real_drafter" out/draft_cli ;;
esac
END
chmod +x "$work/with/rt"
: >"$work/runs"
ask=(env -u JUDGE_PROGRAM "PATH=$work/with:$PATH" "$copy/judge" "$here/words.hex")
ask_draft=(env -u JUDGE_PROGRAM -u DRAFT_PROGRAM "PATH=$work/with:$PATH" "$copy/judge" --draft "$here/model")
bare=(env -u JUDGE_PROGRAM "PATH=$tools" "$copy/judge" "$here/words.hex")

# builds NAME COUNT: so many builds so far
builds() {
    local count
    count=$(wc -l <"$work/runs")
    if ((count == $2)); then ok; else wrong "$1: wanted $2 builds so far, got $count"; fi
}
mum 'no program and no rt' 'rt, the Rattle toolchain' "${bare[@]}"
mum 'bad input is told before a build' 'no such file' env -u JUDGE_PROGRAM "PATH=$work/with:$PATH" "$copy/judge" "$here/absent.hex"
builds 'bad input' 0
touch "$work/broken"
mum 'a build that fails' 'could not be built' "${ask[@]}"
mum 'the last lines of its log are shown' "said by rt in $copy/crates/judge_cli: run" "${ask[@]}"
builds 'a build that fails is tried again' 2
rm "$work/broken"
touch "$work/lazy"
mum 'a build that makes no program' 'made no' "${ask[@]}"
rm "$work/lazy"
says 'a first build' "$good" "${ask[@]}"
if grep -q 'building the program' "$work/err"; then ok; else wrong 'a build is not announced'; fi
builds 'a first build' 4
says 'no second build' "$good" "${ask[@]}"
builds 'no second build' 4
if [[ ! -s $work/err ]]; then ok; else wrong 'something on standard error where nothing is built'; fi
ln -s "$copy/judge" "$here/another link"
says 'by a link, with the program beside the script' "$good" within / "${ask[@]:0:4}" "$here/another link" "$here/words.hex"
says 'with bash, coreutils and awk alone' "$good" "${bare[@]}"
says 'two files with those alone' "$good" "${bare[@]:0:5}" "$here/model" "$here/table.bin"
sleep 0.01
touch "$copy/crates/judge_cli/src/main.rt"
mum 'a newer source and no rt' 'older than its sources' "${bare[@]}"
touch "$work/lazy"
says 'a newer source' "$good" "${ask[@]}"
builds 'a newer source' 5
says 'once is enough where rt leaves the program as it is' "$good" "${ask[@]}"
builds 'once is enough' 5
rm "$work/lazy"
sleep 0.01
touch "$copy/crates.txt"
says 'a newer crates.txt' "$good" "${ask[@]}"
builds 'a newer crates.txt' 6
sleep 0.01
rm "$copy/crates/judge_cli/src/main.rt"
says 'a source taken away' "$good" "${ask[@]}"
builds 'a source taken away' 7

mum 'a draft by a program that is not built' 'rt, the Rattle toolchain' env -u DRAFT_PROGRAM "PATH=$tools" "$copy/judge" --draft "$here/model"
mum 'bad rounds are told before a build' 'no number of rounds' "${ask_draft[@]}" many
builds 'bad rounds' 7
touch "$work/broken"
mum 'a drafting program that cannot be built' "said by rt in $copy/crates/draft_cli: run" "${ask_draft[@]}"
rm "$work/broken"
run "${ask_draft[@]}"
if grep -q 'tools/build.sh draft_cli' "$work/err"; then ok; else wrong 'a build of the drafting program is not announced'; fi
drafts 'no second build of it' 100000 3 $model "${ask_draft[@]}"
builds 'the drafting program' 9
drafts 'a draft with bash, coreutils and awk alone' 100000 3 $model env -u DRAFT_PROGRAM "PATH=$tools" "$copy/judge" --draft "$here/model"

# --- nothing is left behind

if [[ -z $(ls -A "$work/temporary") ]]; then ok; else wrong "temporary files are left behind: $(ls -A "$work/temporary")"; fi

if ((failed)); then
    printf 'judge_script: %d of %d checks failed\n' "$failed" $((passed + failed))
    exit 1
fi
printf 'judge_script: %d checks passed\n' "$passed"
