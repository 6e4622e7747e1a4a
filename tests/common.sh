# Sourced first by tests of C's library, with their words and $top, the repository: their help, a folder $work that is
# removed, and the count of what holds.

# That of a folder, as of tests/ports, is its script `run`.
name_of_test=${0%/run} && name_of_test=${name_of_test##*/}
case ${1-} in
-h | --help)
    sed -n '1d;/^#/!q;s/^# \{0,1\}//p' "$0"
    exit 0
    ;;
esac
stop() {
    echo "$name_of_test: $*; tests/${0##*tests/} --help says more" >&2
    exit 2
}
cc=${cc:-cc}
command -v "${cc%% *}" > /dev/null || stop "${cc%% *} is wanted, and isn't on the path"
soname=$(sed -n 's/^SONAME = //p' "$top/Makefile") version=$("$top/tools/package/names" --version)
work=$(mktemp -d) || exit 2
trap 'rm -rf "$work"' EXIT
trap 'exit 130' INT
trap 'exit 143' TERM HUP
right=0 wrong=0 under_way=0 processors=$(nproc 2> /dev/null || echo 2)
# With these a program's own calls of the C library for memory are told.
wraps=-Wl,--wrap=malloc,--wrap=free,--wrap=tlsf_memory_alloc

# holds WHAT COMMAND..: the command ends well; else what it said is shown.
holds() {
    said=$1
    shift
    "$@" > "$work/out" 2>&1 < /dev/null
    count $? "$work/out" "$said"
}

count() { # count STATUS FILE WHAT
    if [ "$1" -eq 0 ]; then
        right=$((right + 1))
    else
        wrong=$((wrong + 1))
        tail -n 12 "$2" >&2
        echo "$name_of_test: wrong: $3" >&2
    fi
}

# later WHAT COMMAND..: the same beside others, as many as there are processors. They are counted by `wait_for_all`.
later() {
    [ "$under_way" -lt "$processors" ] || wait_for_all
    under_way=$((under_way + 1))
    echo "$1" > "$work/later.$under_way.said"
    rm -f "$work/later.$under_way.status"
    shift
    {
        "$@" > "$work/later.$under_way" 2>&1 < /dev/null
        echo $? > "$work/later.$under_way.status"
    } &
}

wait_for_all() {
    wait
    ended=0
    while [ "$ended" -lt "$under_way" ]; do
        ended=$((ended + 1)) status=
        [ ! -s "$work/later.$ended.status" ] || read -r status < "$work/later.$ended.status"
        read -r said < "$work/later.$ended.said"
        count "${status:-1}" "$work/later.$ended" "$said"
    done
    under_way=0
}

# notices COMMAND..: the command ends badly.
notices() {
    ! "$@"
}

# fails WHY: says it, as a command that `holds` tries.
fails() {
    echo "$*"
    return 1
}

# untried WHY: says on standard error what isn't tried, and fails.
untried() {
    fails "$name_of_test: $*" >&2
}

# as_it_stands FOLDER: makes it a repository of one commit, which has the files that git knows here, as they stand. Hooks and other
# habits of this user's git have no part in it.
as_it_stands() (
    cd "$top" && git init -q --bare "$1" && export GIT_COMMITTER_NAME=test GIT_COMMITTER_EMAIL=test GIT_AUTHOR_NAME=test GIT_AUTHOR_EMAIL=test &&
        git -c safe.directory='*' ls-files -z | git --git-dir="$1" --work-tree=. -c core.autocrlf=false -c core.fsync=none \
            update-index -z --add --remove --stdin &&
        cd "$1" && git update-ref HEAD "$(git write-tree | xargs git commit-tree -m "as it stands")"
)

# has WHAT TOOL..: whether these are there; else a line says what isn't tried.
has() {
    tried=$1
    shift
    for tool; do
        command -v "$tool" > /dev/null || untried "$tool isn't there, so $tried isn't tried" || return
    done
}

# has_cargo TOOL..: whether the crates can be built here, which needs these besides; else a line says that they aren't tried.
has_cargo() {
    has "bindings/rust" cargo "$@" || return
    cargo --version > "$work/out" 2>&1 || untried "cargo has no toolchain here, so bindings/rust isn't tried"
}

says_stale() { # says_stale COMMAND..: what examples/c/first.c prints
    [ "$("$@")" = "no live block has that name or address" ]
}

# block LANGUAGE PAGE [WORD]: the page's first block of code in it, or the first with that word.
block() {
    awk -v begin="\`\`\`$1" -v word="${3-}" '$0 == begin { inside = 1; text = ""; next }
        inside && /^```$/ { inside = 0; if (index(text, word)) { printf "%s", text; exit } }
        inside { text = text $0 "\n" }' "$2"
}

# rust_for SYSTEM TARGET TOOLS RUN TRIED COMMAND..: the command takes lines for a shell. They are those of the crates' page for
# another target, which names aarch64, and calls of cargo: one example, or where `all` is TRIED, all tests. RUN runs what is built.
rust_for() {
    system=$1 target=$2 tools=$3 run=$4 calls='cargo run --example voices'
    [ "$5" != all ] || calls="$calls && cargo run --example two_threads && cargo test --tests"
    shift 5
    has "Rust for $system" cargo rustc "$tools-gcc" "${run%% *}" || return
    [ -d "$(rustc --print sysroot 2> /dev/null)/lib/rustlib/$target/lib" ] ||
        untried "rustc has no library for $system, so Rust for it isn't tried" || return
    small=$(echo "$target" | tr - _) large=$(echo "$target" | tr a-z- A-Z_)
    lines=$(block sh bindings/rust/README.md --target | sed "s/aarch64-linux-gnu/$tools/; s/aarch64-unknown-linux-gnu/$target/
s/aarch64_unknown_linux_gnu/$small/; s/AARCH64_UNKNOWN_LINUX_GNU/$large/")
    holds "Rust for $system" "$@" "cd bindings/rust
export CARGO_NET_OFFLINE=true CARGO_BUILD_TARGET=$target CARGO_TARGET_${large}_RUNNER='$run'
$lines
$calls"
}

# Tells how much holds, as a status too.
conclude() {
    echo "$name_of_test: $right right, $wrong wrong"
    [ "$wrong" -eq 0 ]
}
