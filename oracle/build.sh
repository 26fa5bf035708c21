# Sourced by the scripts beside it. HYBIT_SRC and DENIMRASP_LIB may name hybit's sources and the archive's folder.

# Takes `--hybit PATH` out of the arguments and leaves the others in `options`.
take_options() {
    options=()
    while (($#)); do
        case $1 in
            --hybit)
                HYBIT_SRC=$2
                shift 2
                ;;
            *)
                options+=("$1")
                shift
                ;;
        esac
    done
}

archive=target/staticlib/libdenimrasp.a

archive_is_old() {
    [[ ! -e $archive ]] || [[ -n $(find crates -name out -prune -o -type f -newer "$archive" -print -quit) ]]
}

# Goes to the project's root, and makes the archive where it is missing or older than the crates.
make_archive() {
    local path
    if [[ -n ${HYBIT_SRC:-} ]]; then
        path=$(realpath "$HYBIT_SRC")
        export HYBIT_SRC=$path
    fi
    if [[ -n ${DENIMRASP_LIB:-} ]]; then
        path=$(realpath "$DENIMRASP_LIB")
        export DENIMRASP_LIB=$path
    fi
    cd "$(dirname "${BASH_SOURCE[0]}")/.."
    if [[ -z ${DENIMRASP_LIB:-} ]] && archive_is_old && command -v rt >/dev/null; then
        (cd crates/denimrasp_c && rt lib --cpu x86-64) >&2
        mkdir -p "${archive%/*}"
        cp crates/denimrasp_c/out/libdenimrasp_c.a "$archive"
    fi
}

# The same, then builds the comparison.
build_all() {
    make_archive
    cargo build --release --offline --quiet --manifest-path oracle/Cargo.toml -p compare-run
}
