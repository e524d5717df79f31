# Finds the Rattle kit as its command `rt` does; compiles, links and runs C programs with it: the kit's own clang, ld.lld and C library, with
# no install; and makes the archive of the calls for C and the program of the main command, both proved. Programs are for x86-64. To be sourced
# by bash; works in any folder.

# The folder of the repository.
root=$(cd "$(dirname "${BASH_SOURCE[0]}")/.." && pwd -P)

# The crate of the exports for C, the archive that is made of it, and the crate of the main command. No other script names them.
archive_crate=snowcoddle_c
program_crate=listing
proved_archive=$root/target/staticlib/libsnowcoddle.a
program=$root/crates/$program_crate/out/$program_crate

# Says so where the command rt is missing.
kit_command() {
    command -v rt >/dev/null || { echo "the Rattle kit's command rt is not on the PATH" >&2; return 1; }
}

# The kit's folder `home`, from RATTLE_HOME or from rt, which knows where its guide stands; then its tools, and the words that `run` a program
# with them.
kit_find() {
    local guide
    if [ -n "${RATTLE_HOME:-}" ]; then
        home=$RATTLE_HOME
    else
        kit_command || return 1
        guide=$(rt doc) || return 1
        home=$(dirname "$guide")
    fi
    tools=$home/toolchain
    [ -x "$tools/bin/clang" ] || { echo "the Rattle kit at $home has no compiler" >&2; return 1; }
    run=("$tools/lib/ld-linux-x86-64.so.2" --library-path "$tools/lib")
}

# Proves the archive of the calls for C, which then is $proved_archive. What it stands on is proved first, several crates at a time.
kit_prove_archive() {
    kit_command || return 1
    (cd "$root/crates" && rt all check --jobs "$(nproc)") || return 1
    (cd "$root/crates/$archive_crate" && rt lib) || return 1
    mkdir -p "${proved_archive%/*}" && cp "$root/crates/$archive_crate/out/lib$archive_crate.a" "$proved_archive"
}

# Proves the main command's program, which then is $program, and builds it.
kit_prove_program() {
    kit_command || return 1
    (cd "$root/crates/$program_crate" && rt run) </dev/null
}

# The kit's clang for x86-64. The kit has no C headers: tools/include has what is needed of them.
kit_clang() {
    "$tools/bin/clang" --target=x86_64-unknown-linux-gnu -Wall -Wextra -Werror -pedantic -nostdinc -isystem "$root/tools/include" "$@"
}

# kit_compile OUT.o FILE.c [WORDS..]: the words go to clang.
kit_compile() {
    local out=$1 file=$2
    shift 2
    kit_clang -std=c99 -O2 -fPIC -I "$root/include" "$@" -c -o "$out" "$file"
}

# kit_compile_folder OUT FOLDER: compiles every C file in a folder and in those under it, which may include the headers of all of them, and
# lists what comes out, files in the folder OUT, in `objects`.
kit_compile_folder() {
    local out=$1 folder file object include=()
    while read -r folder; do include+=(-I "$folder"); done < <(find "$2" -type d | LC_ALL=C sort)
    objects=()
    while read -r file; do
        object=$out/${file//\//-}.o
        kit_compile "$object" "$file" "${include[@]}" || { echo "$file does not compile" >&2; return 1; }
        objects+=("$object")
    done < <(find "$2" -name '*.c' | LC_ALL=C sort)
    [ ${#objects[@]} -gt 0 ] || { echo "there is no C file in $2" >&2; return 1; }
}

# kit_link OUT FILE.o.. [ARCHIVE..]: with the kit's C library.
kit_link() {
    local out=$1 lib=$tools/lib
    shift
    "$tools/bin/ld.lld" -pie --dynamic-linker "$lib/ld-linux-x86-64.so.2" -o "$out" "$lib/Scrt1.o" "$lib/crti.o" "$@" \
        "$lib/libc.so.6" "$lib/libc_nonshared.a" "$lib/crtn.o"
}

# kit_run PROGRAM [WORDS..]: under the kit's loader and C library.
kit_run() { "${run[@]}" "$@"; }
