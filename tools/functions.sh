# Functions of the scripts that build the book and run it. A script sources this file from the repository's root.

# lacks WORDS: ends the script with what is not there
lacks() {
    echo "$0: $*" >&2
    exit 1
}

# needs_rt: ends the script where the toolchain is missing
needs_rt() {
    command -v rt >/dev/null || lacks 'rt, the command of the Rattle toolchain, is not on the path'
}

# needs COMMAND PACKAGE: ends the script where a command is missing, and names the package of Debian that has it
needs() {
    command -v "$1" >/dev/null || lacks "the command $1 is missing: install Debian's package $2"
}

# has_header HEADER: whether the C compiler finds a library's header
has_header() {
    printf '#include <%s>\n' "$1" | cc -E - >/dev/null 2>&1
}

# quietly COMMAND..: runs a command; what it says is shown only where it fails, and ends the script
quietly() {
    said=$("$@" 2>&1) || {
        printf '%s\n' "$said" >&2
        exit 1
    }
}

# in_crate NAME COMMAND..: runs a command in a crate's folder, with nothing to read
in_crate() (
    cd "crates/$1" || exit 1
    shift
    "$@" </dev/null
)

# build_program NAME..: proves and builds programs, each as target/bin/NAME. rt tells how far it is, and last runs the program on nothing.
build_program() {
    mkdir -p target/bin || return 1
    for program in "$@"; do
        in_crate "$program" rt run && cp -fp "crates/$program/out/$program" target/bin || return 1
    done
}

# build_library NAME: proves and builds a static library as target/staticlib/libNAME.a
build_library() {
    mkdir -p target/staticlib && in_crate "$1" rt lib && cp -fp "crates/$1/out/lib$1.a" target/staticlib
}

# copy_to FOLDER PATH..: copies files and folders into a folder, but for what is built in them
copy_to() {
    folder_of_copy=$1
    shift
    tar -cf - --exclude=out --exclude=target "$@" | tar -xf - -C "$folder_of_copy"
}

# build_second: builds the second program as target/cargo/release/second
build_second() {
    needs cargo cargo
    cargo build --quiet --release --offline --manifest-path second/Cargo.toml --target-dir target/cargo
}
