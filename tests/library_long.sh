# Sourced by library_test --long, which has what is said here of programs: what takes longer.
# Words are split on purpose.
# shellcheck disable=SC2086

# Proves the library in a copy of this repository, and keeps the LLVM module that it is compiled from.
build_keeping_module() {
    tree=$1
    kit=$(rt doc) && kit=${kit%/START-HERE.md} || return 1
    tools/prove archive "$tree" "$work/libtlsf_c.a" > "$work/lib.log" 2>&1 && [ -s "$work/libtlsf_c.a.ll" ] && return
    tail -n 5 "$work/lib.log" >&2
    return 1
}

# sanitized KIND TO FLAG..: the library's own module with the checks of KIND, address or thread.
sanitized() {
    kind=$1 object=$2
    shift 2
    sed -E "s/^(attributes #[0-9]+ = \{)/\1 sanitize_$kind/; /^define /{/#[0-9]+ \{\$/! s/ \{\$/ sanitize_$kind {/}" \
        "$work/libtlsf_c.a.ll" > "$work/checked.ll" &&
        "$kit/toolchain/bin/clang" --target=x86_64-unknown-linux-gnu -O1 -g -fPIC "-fsanitize=$kind" "$@" \
            -x ir -c "$work/checked.ll" -o "$object" || return 1
    # gcc's runtime of TSan has the C library's names for these.
    [ "$kind" != thread ] || objcopy --redefine-sym __tsan_memset=memset --redefine-sym __tsan_memcpy=memcpy --redefine-sym __tsan_memmove=memmove "$object"
}

many_calls() {
    cc='gcc -g'
    made random && made pointers && made threads
    for seed in 1 2 3; do
        for level in 4 5; do
            does random "1000000 $seed $level"
            does pointers "1000000 $seed $level"
            does pointers "1000000 $seed $level names"
        done
    done
    does threads 1000000
    count_steps 20000
    on="$valgrind --leak-check=full" with=' under valgrind' cxx='g++ -std=c++17 -g'
    c_work v
    cpp_work v
    on='' with=''
}

with_sanitizers() {
    cc="gcc $checks -DTLSF_ASAN" with=' with ASan and UBSan' cxx="g++ -std=c++20 $checks"
    made pointers
    for level in 4 5; do
        does pointers "500000 7 $level names"
    done
    made_cpp containers && does containers ''
    cc="gcc $checks"
    made random && does random "1000000 5 4"
    cc=gcc with=''
    holds "ASan in the library" sanitized address "$work/address.o"
    holds "random.c over it" linked_with "$work/random_both" address "$work/address.o" tests/c/random.c
    holds "a million random calls with ASan in the library too" "$work/random_both" 1000000 6 5
}

linked_with() { # linked_with TO KIND OBJECT FILE [FLAG..]
    to=$1 kind=$2 object=$3
    shift 3
    compile_c memory "$work/memory.o" &&
        gcc -O1 -g "-fsanitize=$kind" -I"$prefix/include" "$@" "$object" "$work/memory.o" -pthread -o "$to"
}

with_thread_checks() {
    holds "TSan in the library" sanitized thread "$work/thread.o"
    for file in tests/c/threads.c tests/c/race.c tests/c/queues.c tests/c/locked.c examples/c/loaders.c tests/cpp/homes.cpp; do
        name=${file##*/}
        holds "$name over it" linked_with "$work/${name%.*}" thread "$work/thread.o" "$file" -lstdc++
    done
    with=' with TSan'
    does threads 200000
    does threads '100000 3'
    does queues '4 50000'
    does locked 50000
    does homes ''
    does loaders ''
    with=
    for kind in payload call release handle put post; do
        holds "TSan tells of a race of kind $kind" tells_of_race "$work/race" "$kind"
    done
    does race right
}

long_outer_programs() {
    outer_programs --times
    grep '^[a-z]' "$work/out"
    # By counters in the library's branches libFuzzer sees which bytes lead to new ones.
    holds "ASan and counters in the library" sanitized address "$work/counting.o" -fsanitize-coverage=inline-8bit-counters,pc-table,trace-cmp
    bytes_as_calls 600 --with "$work/counting.o"
}

# A million calls on aarch64.
long_for_aarch64() {
    c_work b
    turned_round aarch64
}

# The library for armv7, where each store of a pointer fills the other half of its place. Whoever reads that is led astray.
poisoned_for_armhf() {
    holds "the library for armv7 with poison" put_poison
    [ -s "$work/poisoned.o" ] || return
    with=" on armv7 with poison"
    c_work a -std=c11
    cpp_work a
}

put_poison() {
    tools/port "$work/libtlsf_c.a.ll" armv7 "$work/poisoned.s" --poison && notices cmp -s dist/library-armv7.s "$work/poisoned.s" &&
        $cc -DTLSF_ONLY_CALLS -c -x assembler-with-cpp "$work/poisoned.s" -o "$work/poisoned.o" &&
        tool ar d "$archive" calls.o && tool ar q "$archive" "$work/poisoned.o"
}

turned_round() { # turned_round PROCESSOR: branches of the library, in dist/
    holds "branches that are turned round$with" tests/c/turned dist "$1" 100
    tail -n 1 "$work/out" >&2
}

# Images for processors of 32 bits. Where no tool for these is there, that script says so, and nothing is wrong.
on_bare_boards() {
    tests/bare_test > "$work/bare" 2>&1 < /dev/null
    bare=$?
    cat "$work/bare" >&2
    [ "$bare" -eq 2 ] || count "$bare" "$work/bare" "images for processors of 32 bits (tests/bare_test)"
}

take_long() {
    many_calls
    with_sanitizers
    with_thread_checks
    long_outer_programs
    beside_archive --long
    turned_round x86_64
    on_bare_boards
    ! put_for_aarch64 || long_for_aarch64
    ! put_for_armhf || poisoned_for_armhf
}
