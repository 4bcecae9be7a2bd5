# Read by the scripts beside it, which name themselves in $0. Builds the program
# against libstar.a; sets bench to it and work to a folder for the run alone.
# entry prints the function of a call, whose instructions are counted.
#
# STAR_LIB_DIR names the folder of libstar.a, by default crates/star/out, where rt lib
# leaves it.

for tool in cargo valgrind callgrind_annotate objdump timeout awk; do
    command -v "$tool" > /dev/null || { echo "$0: $tool is absent" >&2; exit 1; }
done
here=$(cd "$(dirname "$0")" && pwd)
folder=${STAR_LIB_DIR:-$here/../crates/star/out}
[ -f "$folder/libstar.a" ] || { echo "$0: no archive at $folder/libstar.a" >&2; exit 1; }
STAR_LIB_DIR=$(cd "$folder" && pwd)
export STAR_LIB_DIR

cargo build --quiet --release --offline --locked --manifest-path "$here/Cargo.toml"
bench=${CARGO_TARGET_DIR:-$here/target}/release/tackturnel-bench
work=$(mktemp -d)
trap 'rm -rf "$work"' EXIT

# The walk down a column by its links is a function of the program itself; a call on the
# file of 1991 is the call without that number.
entry() {
    case $1 in
        *_1991) echo "star_${1%_1991}" ;;
        walk) echo 'tackturnel_bench::columns::walk' ;;
        *) echo "star_$1" ;;
    esac
}
