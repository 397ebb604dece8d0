# What the scripts of this folder share: the workspace in which our static libraries are proved and built. And what bench/run and bench/agree
# share: where the Rust crate comes from, those libraries, and the build of bench/rust. Both set `offline` to what Cargo may do without a local copy: `--offline`, or nothing where it may ask its registry.

# The crates of bench/crates are no part of the gate. A copy of the library's crates and of these stands here, where `rt lib` proves and builds them.
workspace=${WOLDBRAID_BENCH:-${TMPDIR:-/tmp}/woldbraid-bench-$(id -u)-$(pwd | cksum | cut -d' ' -f1)}

libraries=(winnow_bench winnow_bench_agree winnow_bench_values)
manifest=$PWD/rust/Cargo.toml
programs=$PWD/rust/target/release
flags=()
wanted_level=

# Whether Cargo finds the Rust crate: in the local copies that WINNOW_SOURCE and MEMCHR_SOURCE name, else where it finds crates itself.
find_crate() {
    local name source
    for name in winnow memchr; do
        source=${name^^}_SOURCE
        source=${!source:-}
        [[ -n $source ]] || continue
        if [[ ! -f $source/Cargo.toml ]]; then
            echo "bench: ${name^^}_SOURCE is $source, where no Rust crate is"
            exit 3
        fi
        flags+=(--config "patch.crates-io.$name.path=\"$(realpath "$source")\"")
        offline=--offline
    done
    # A copy that hands out what the crate keeps private.
    if grep -qs 'pub mod hooks' "${WINNOW_SOURCE:-.}/src/error.rs"; then
        export WINNOW_HOOKS=1
    fi
    flags+=($offline)
    rm -f rust/Cargo.lock
    command -v cargo >/dev/null && cargo fetch --quiet --manifest-path "$manifest" "${flags[@]}" 2>rust/fetch.log
}

# Brings the workspace up to date, with what the repository has built of its own crates.
fill_workspace() {
    local built crate
    ../tools/workspace crates "$workspace"
    for built in ../crates/*/out/rlib; do
        [[ -e $built ]] || continue
        crate=$(basename "${built%/out/rlib}")
        [[ -d $workspace/crates/$crate ]] || continue
        mkdir -p "$workspace/crates/$crate/out"
        cp -Ru "$built" "$workspace/crates/$crate/out/"
    done
}

# Proves and builds our static libraries, for `wanted_level` where that is set, and says for which processor level. One is left as it is
# where it was built in the same way after the last change of a source.
build_ours() {
    local library built way
    mkdir -p rust/target
    fill_workspace
    way="$(rt version) ${wanted_level:-at the default level}"
    for library in "${libraries[@]}"; do
        built=rust/target/$library.built
        if [[ -f $built && $(<"$built") == "$way" && ! $workspace/crates/$library/out/lib$library.a -nt rust/$library.log ]] &&
            [[ -f $workspace/crates/$library/out/lib$library.a ]] &&
            [[ -z $(find "$workspace"/crates.txt "$workspace"/crates/*/{src,specs,proofs} -newer "$built" -print -quit 2>/dev/null) ]]; then
            continue
        fi
        rm -f "$built"
        echo "$way" >"$built.new"
        if ! (cd "$workspace/crates/$library" && rt lib $wanted_level) >"rust/$library.log" 2>&1; then
            grep -E 'error|no proof|not proved' "rust/$library.log" || tail "rust/$library.log"
            echo "bench: our library $library is not built"
            exit 1
        fi
        # The library is older than its log, unless something else builds it anew.
        touch "rust/$library.log"
        mv "$built.new" "$built"
    done
    level=$(sed -n 's/^logic=proved.* cpu=\([^ ]*\).*/\1/p' "rust/${libraries[0]}.log" | tail -1)
    level=${level:-x86-64}
}

# Builds a program of bench/rust for the same processor level.
build_rust() {
    WINNOW_BENCH_CRATES=$workspace/crates WINNOW_BENCH_LIBRARIES="${libraries[*]}" RATTLE_C_FOLDER=$(dirname "$(rt doc)")/c RUSTFLAGS="-C target-cpu=$level" \
        cargo build --release --quiet --manifest-path "$manifest" --target-dir rust/target "${flags[@]}" --bin "$1" 2>rust/build.log && return
    tail -40 rust/build.log
    echo "bench: $1 is not built"
    exit 1
}
