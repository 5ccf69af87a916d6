#!/usr/bin/env bash
# What `make install` puts where, and that it works there, away from the repository.
# Its last line is 'N passed, 0 failed' where all of that holds; otherwise it exits with an error and prints no such
# line.
set -euo pipefail
cd "$(dirname "$0")/.."

folder=$(mktemp -d)
test=install
trap '[ $? = 0 ] || echo "FAILED $test"; rm -rf "$folder"' EXIT
prefix=$folder/prefix
stage=$folder/stage
examples=$PWD/examples
example=$PWD/tests/c/example.c
passed=0

# Runs a test and counts it. The first command in it that fails ends the script.
try() {
    test=$1
    shift
    "$@"
    echo "passed $test"
    passed=$((passed + 1))
}

# The two texts are the same.
same() {
    [ "$1" = "$2" ] || { printf 'expected\n%s\nfound\n%s\n' "$1" "$2"; return 1; }
}

installed_files() {
    cat <<'END'
755 bin/burmelox
755 bin/burmelox_check
644 include/burmelox.h
644 lib/libburmelox.a
755 lib/libburmelox.so
644 lib/pkgconfig/burmelox.pc
644 share/burmelox/python/burmelox.py
644 share/man/man1/burmelox.1
644 share/man/man1/burmelox_check.1
644 share/man/man3/burmelox.3
END
}

# The files under a folder, each with its mode.
files_under() { (cd "$1" && find . -type f -printf '%m %P\n' | sort -k 2); }

has_all_files() { same "$(installed_files)" "$(files_under "$1")"; }

# DESTDIR is where the files stand, and none of them names it.
is_written_for_prefix() {
    same "prefix=/opt/burmelox" "$(head -n 1 "$stage/opt/burmelox/lib/pkgconfig/burmelox.pc")"
    ! grep -rqF "$stage" "$stage"
}

leaves_nothing() {
    make --silent uninstall PREFIX=/opt/burmelox DESTDIR="$stage"
    same "" "$(cd "$stage" && find . -type f)"
    [ ! -e "$stage/opt/burmelox/share/burmelox" ]
}

# A command run elsewhere, without the variables that the tests go by.
elsewhere() { (cd / && env -u BURMELOX_LIBRARY -u BURMELOX_LIB_DIR -u BURMELOX_PROGRAM "$@"); }

runs_the_program() {
    same "$(cat "$examples/G.txt")" "$(elsewhere "$prefix/bin/burmelox_check" < "$examples/G.sheet")"
}

runs_the_command() {
    elsewhere "$prefix/bin/burmelox" --version > "$folder/version"
    grep -qwF "$(version)" "$folder/version"
    elsewhere "$prefix/bin/burmelox" check "$examples/G.sheet" > "$folder/verdict"
    grep -qx "$(head -n 1 "$examples/G.txt")" "$folder/verdict"
}

version() { sed -n 's/^Version: //p' "$prefix/lib/pkgconfig/burmelox.pc"; }

# The compiler's words for a program: by pkg-config, or as burmelox.pc has them where there is none.
flags() {
    local pc=$prefix/lib/pkgconfig/burmelox.pc
    if command -v pkg-config > /dev/null; then
        PKG_CONFIG_PATH=$prefix/lib/pkgconfig pkg-config --cflags --libs burmelox
    else
        sed -n 's/^\(Cflags\|Libs\): //p' "$pc" | sed "s|\${includedir}|$prefix/include|; s|\${libdir}|$prefix/lib|"
    fi
}

printed_in_c=$'accepted rows 1\nvalue 16\nfloor 0, tried 4'

links_the_shared_library() {
    # shellcheck disable=SC2046 # one word for each flag
    cc "$example" $(flags) -o "$folder/shared"
    same "$printed_in_c" "$(elsewhere LD_LIBRARY_PATH="$prefix/lib" "$folder/shared")"
}

links_the_archive() {
    cc -I "$prefix/include" "$example" "$prefix/lib/libburmelox.a" -o "$folder/static"
    same "$printed_in_c" "$(elsewhere "$folder/static")"
}

# The functions that the header declares, and no other names.
exports_the_functions() {
    local declared exported
    declared=$(sed -n 's/^uint64_t \(burmelox_[a-z_]*\)(.*/\1/p' "$prefix/include/burmelox.h" | sort)
    exported=$(nm -D --defined-only "$prefix/lib/libburmelox.so" | sed 's/.* //' | sort)
    same "$declared" "$exported"
}

# The installed module loads the installed library, and calls it.
calls_from_python() {
    local modules=$prefix/share/burmelox/python
    local code="import burmelox as b; print(b.__file__, b.library()._name, b.profile_text(), sep='\n', end='')"
    same "$(printf '%s\n' "$modules/burmelox.py" "$prefix/lib/libburmelox.so" profile \
        "exponent 120" "weight 1073741824" "rows 256")" \
        "$(elsewhere PYTHONPATH="$modules" PYTHONDONTWRITEBYTECODE=1 python3 -c "$code")"
}

# The page has no mistake in its macros, and names the version.
is_formatted() {
    same "" "$(groff -man -Tutf8 -ww -z "$1" 2>&1)"
    grep -q "^\.TH .*\"Burmelox $(version)\"" "$1"
}

make --silent install PREFIX=/opt/burmelox DESTDIR="$stage"
try "files below DESTDIR" has_all_files "$stage/opt/burmelox"
try "written for PREFIX" is_written_for_prefix
try "uninstall" leaves_nothing
make --silent install PREFIX="$prefix"
try "files" has_all_files "$prefix"
try "program" runs_the_program
try "command" runs_the_command
try "shared library in C" links_the_shared_library
try "archive in C" links_the_archive
try "names in the shared library" exports_the_functions
try "Python module" calls_from_python
if command -v groff > /dev/null; then
    for page in "$prefix"/share/man/man?/*; do
        try "man page ${page##*/}" is_formatted "$page"
    done
fi
echo "$passed passed, 0 failed"
