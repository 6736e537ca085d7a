# For the scripts beside it: finds the folder of the published source files and builds one package.
# A script that takes this in has set `here` to the oracle's folder and `use` to its own use.

target="$here/../target/oracle"

fail() {
    echo "oracle: $1" >&2
    exit 2
}

# The same check as in reference/build.rs, made here for a message of one line.
check_source() {
    local advice="name another folder with: $use --source DIR .."
    [[ -d "$1" ]] || fail "the source folder $1 is missing; $advice"
    local file
    for file in error.rs context.rs scanner.rs preprocessor.rs; do
        [[ -f "$1/$file" || -f "$1/src/$file" ]] ||
            fail "the source file $1/$file is missing, and so is $1/src/$file; $advice"
    done
}

# Cargo runs inside the workspace, so a relative folder must become absolute.
take_source() {
    check_source "$1"
    ORACLE_SOURCE="$(cd "$1" && pwd)"
    export ORACLE_SOURCE
}

# Builds a package, with the release profile or the one that is named.
build() {
    (cd "$here" && cargo build --profile "${2:-release}" --quiet --offline --locked --package "$1" --target-dir "$target") >&2
}

source_folder="${ORACLE_SOURCE:-$here/../../shared/docs/src}"
