#!/usr/bin/env bash
# Builds the published Rust as it is, over nalgebra 0.33.2 and num-complex 0.4.6 themselves.
#   tools/compare/untouched.sh SOURCES [FOLDER]
# SOURCES is the folder ikgeo/src of CEAD-group/py-ikgeo-kinematics at ab1d41c5bf, which is not part of
# this repository. FOLDER (target/untouched) gets what is fetched and built, and a program `blocks` that
# reads blocks and prints document 01's lines (tools/compare/untouched/main.rs).
# The other crates come as source from Debian 13's packages librust-NAME-dev. Nothing is installed.
# DEBIAN_ARCHIVE names another archive than http://deb.debian.org/debian. Needs apt-get with Debian's
# keys, dpkg and cargo.
set -euo pipefail
here=$(cd "$(dirname "$0")" && pwd)
[ $# -ge 1 ] || { sed -n '2,10s/^# *//p' "$0" >&2; exit 2; }
sources=$(cd "$1" && pwd)
folder=$(realpath -m "${2:-$here/../../target/untouched}")
registry=$folder/root/usr/share/cargo/registry
files="solutionset.rs subproblems/auxiliary.rs subproblems/mod.rs inverse_kinematics/auxiliary.rs inverse_kinematics/mod.rs"

# The files that docs/DIFFERENCES.md has its figures from.
as_published() {
    (cd "$sources" && sha256sum --quiet --check) <<'END'
974c2db697ba3d1295fae77b015c0e974e5d5adf3707dcadd250ed7478aaaf50  solutionset.rs
3e0a0adb8c6a8730af072850aadc0bfdc109f1a49a5557e1ceb6ac772797a08a  subproblems/auxiliary.rs
7a832fa43a97d797299313ddfc6fcfaf469aaac6a126ff0ad2e665890b698aaa  subproblems/mod.rs
fc4bc6acdd7d1c5838ab1d2b5be4057fe5e94f547bb7c199503ebdf2bf6ef360  inverse_kinematics/auxiliary.rs
4820a8b0cdbdcecad3a6f138a5ffe33820a4286f8f021c5605ad3dfd71d2fc21  inverse_kinematics/mod.rs
END
}

# apt with lists, cache and source of its own.
own_apt() {
    apt-get -qq -o "Dir::Etc::sourcelist=$folder/apt/sources.list" -o Dir::Etc::sourceparts=- \
        -o "Dir::State::lists=$folder/apt/lists" -o "Dir::Cache=$folder/apt/cache" \
        -o "APT::Sandbox::User=$(id -un)" "$@"
}

fetch() {
    local names=(nalgebra nalgebra-macros approx num-complex num-rational num-traits num-integer num-bigint simba
        typenum matrixmultiply rawpointer paste wide safe-arch bytemuck autocfg proc-macro2 quote syn unicode-ident libm)
    rm -rf "$folder/debs" "$folder/unpacked"
    mkdir -p "$folder/apt/lists/partial" "$folder/apt/cache/archives/partial" "$folder/debs" "$folder/unpacked"
    echo "deb ${DEBIAN_ARCHIVE:-http://deb.debian.org/debian} trixie main" >"$folder/apt/sources.list"
    own_apt update
    (cd "$folder/debs" && own_apt download $(printf 'librust-%s-dev ' "${names[@]}"))
    for package in "$folder/debs/"*.deb; do
        dpkg -x "$package" "$folder/unpacked"
    done
    mv "$folder/unpacked" "$folder/root"
}

# Beside the published files the crate has the modules of test fixtures that they name, empty but for
# a constant that no solver reads.
lay_out() {
    local to=$folder/crate file
    mkdir -p "$to/src/subproblems" "$to/src/inverse_kinematics" "$to/.cargo"
    for file in $files; do
        cp -f "$sources/$file" "$to/src/$file"
    done
    echo 'pub const DELTA: f64 = 0.0;' >"$to/src/subproblems/setups.rs"
    : >"$to/src/inverse_kinematics/setups.rs"
    : >"$to/src/inverse_kinematics/hardcoded.rs"
    cp "$here/untouched/Cargo.toml" "$to/"
    cp "$here/untouched/lib.rs" "$here/untouched/main.rs" "$to/src/"
    printf '[source.crates-io]\nreplace-with = "debian"\n[source.debian]\ndirectory = "%s"\n' "$registry" >"$to/.cargo/config.toml"
}

as_published || echo "tools/compare/untouched.sh: other files than those that docs/DIFFERENCES.md speaks of" >&2
[ -d "$registry" ] || fetch
lay_out
(cd "$folder/crate" && CARGO_TARGET_DIR=$folder/built cargo build --release --offline --quiet)
cp "$folder/built/release/untouched" "$folder/blocks"
echo "$folder/blocks"
