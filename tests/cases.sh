# What tests/commands, tests/desk, tests/statuses and tests/operations share: the programs on the PATH, an empty folder to work in with policy E, a root
# secret, trees, a nonce and a text to seal in it, and cases that compare output, messages and exit status. Run after 'make programs'.
# Keys and envelopes are compared with crates/vectors/stdout, which tests/vectors.py made from Python's hmac and
# document 01: policy E, root secret 0, 1, .. 31. Totals, lengths and refusals are those of document 01.
set -u
export LC_ALL=C
umask 022
top=$PWD
vectors=$PWD/crates/vectors/stdout
full=$PWD/tests/plan/full.policy
bin=$(mktemp -d)
work=$(mktemp -d)
trap 'rm -rf "$bin" "$work"' EXIT
cp build/bin/yendlowa build/bin/yendlowa-desk "$bin" && cp crates/plan/stdin "$work/e.policy" || exit 2
chmod 755 "$bin" "$work"
PATH=$bin:$PATH
cd "$work" || exit 2
passed=0
failed=0
group=${0##*/}
program=yendlowa

# The words of each refusal, by its number.
words=(
    "accepted"
    "the file is empty"
    "fewer than 2 bytes are left, or the mark does not belong in this file"
    "the record is cut short"
    "an LB record follows an OV record"
    "a 65th label, a 513th over-pair or a 65th envelope record"
    "the name is badly formed (A to Z and digits, at least one, then spaces)"
    "the name is carried by an earlier record"
    "a number of the over-pair is not a label's"
    "the upper number of the over-pair is not less than the lower"
    "a label other than the first is never the lower of an over-pair"
    "the length is not 2 plus the number of labels"
    "a byte is not the number of a strictly higher label, or the top's is not 0"
    "the policy has no label with this name"
    "the label has no account with this number"
    "the root secret does not have 32 bytes"
    "the buffer is too short for what is to be written"
    "the header has fewer than 12 bytes, a mark other than EN, or account 0"
    "the first record is missing, is not a KS, or does not carry the header's name"
    "the place in the KD record is not less than its own"
    "the envelope has no label with this name"
    "a key or message has more than 65,536 bytes"
    "not a sealed file, a text above 32,768 bytes, or a nonce that is not 12 bytes"
    "the tag differs: the file was altered, or sealed under another key"
    "the number is not 1 to 4,096, or an account has or had it"
    "the account is unknown or withdrawn"
    "the account is held"
)

# same NAME GIVEN WANTED: a case.
same() {
    if [ "$2" == "$3" ]; then
        echo "$group: $1"
        passed=$((passed + 1))
    else
        printf '%s: %s FAILED\n  got    %q\n  wanted %q\n' "$group" "$1" "$2" "$3"
        failed=$((failed + 1))
    fi
}

line() { [ -z "$1" ] || printf '%s\n' "$1"; }

# says NAME STATUS OUT ERR COMMAND..: the status, and the lines on standard output and on standard error.
says() {
    local name=$1 status=$2 out=$3 err=$4 got
    shift 4
    "$@" >"$bin/out" 2>"$bin/err"
    got=$?
    same "$name" "$got $(cat "$bin/out" && echo -- && cat "$bin/err" && echo .)" "$status $(line "$out" && echo -- && line "$err" && echo .)"
}

# answers NAME OUT COMMAND..: status 0, nothing on standard error.
answers() { says "$1" 0 "$2" "" "${@:3}"; }

# refuses NUMBER PLACE COMMAND..: status 1, the number on standard output, place and words on standard error.
refuses() { says "$2: ${words[$1]} ($1)" 1 "REFUSED $1" "$program: $2: ${words[$1]}" "${@:3}"; }

# refuses_file NUMBER I PLACE COMMAND..: the same where argument I is a file, which is quoted, or standard input where there is none.
refuses_file() {
    local file="standard input" at=$((4 + $2))
    [ $# -lt $at ] || file="'${!at}'"
    says "$3: ${words[$1]} ($1)" 1 "REFUSED $1" "$program: $file: $3: ${words[$1]}" "${@:4}"
}

# fails NAME MESSAGE COMMAND..: status 2, nothing on standard output, one line on standard error.
fails() { says "$1" 2 "" "$program: $2" "${@:3}"; }

# What crates/vectors/stdout has after a name; there has to be something.
vector() { grep "^$1: ." "$vectors" | sed 's/.*[ ]//'; }

hex() { od -An -v -tx1 "$1" | tr -d ' \n'; }
bytes() { for b; do printf "\\x$(printf %02x "$b")"; done; }
label() { printf 'LB%-8s' "$1"; bytes $(($2 / 256)) $(($2 % 256)); }
pair() { printf OV; bytes "$1" "$2"; }
tree() { printf TR; bytes "$@"; }
under() { printf 'KD%-8s' "$1"; bytes "$2"; }

as_user() {
    local drop=()
    [ "$(id -u)" -ne 0 ] || drop=(setpriv --reuid=65534 --regid=65534 --clear-groups)
    "${drop[@]}" "$@"
}

# The last line of a group of tests.
sum() {
    echo "$passed passed, $failed failed"
    [ "$failed" -eq 0 ]
}

bytes {0..31} >root
bytes {0..11} >nonce
echo "CLEAN = DIRTY - ACCRUED" >module
tree 0 0 0 2 >plan.tree
tree 0 0 0 1 >curves.tree
tree 0 0 0 0 >flat.tree
long=$(printf 'A%.0s' {1..5000})
