# For the scripts beside it that link the proved library: makes it. Comes behind source.sh.

library=plpgsql_rewriter

make_library() {
    local root="$here/.." log="target/staticlib.log"
    command -v rt >/dev/null || fail "the Rattle kit is missing: there is no command rt to make lib$library.a with"
    mkdir -p "$root/target"
    "$root/tools/staticlib" >"$root/$log" 2>&1 || fail "tools/staticlib failed, see $log"
    [[ -f "$root/target/staticlib/lib$library.a" ]] || fail "tools/staticlib left no lib$library.a, see $log"
}
