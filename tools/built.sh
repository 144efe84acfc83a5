# Read by what runs or packs the programs of this repository: whether a program is there, proved of the sources as they
# stand, and how it is proved and built. `top` is the repository's folder.

# of_crate CRATE: `program` is the program of this crate, and `built` has what it was built of
of_crate() {
    crate=$1
    program=$top/crates/$crate/out/$crate
    built=$program.built
}

# the toolchain's command as a file: its version takes far longer to ask than a small image to replay
rt_file() {
    ls -liL "$(command -v rt)"
}

# the sources and the toolchain of which the program was built are those that are here
is_fresh() {
    [ -x "$program" ] && [ -f "$built" ] || return 1
    if command -v rt >/dev/null && ! grep -qxF "$(rt_file)" "$built"; then
        grep -qxF "$(rt version)" "$built" || return 1
    fi
    newer=$(find "$top/crates.txt" "$top"/crates/*/src "$top"/crates/*/specs "$top"/crates/*/proofs -newer "$built" 2>/dev/null | head -n 1)
    [ -z "$newer" ]
}

# the crates that the program is made of, a line each
list_crates() {
    top_crate=$crate awk '
        !/^#/ && /:/ { name = $1; sub(":", "", name); below[name] = $0 }
        END {
            queue[1] = ENVIRON["top_crate"]; seen[queue[1]] = 1; last = 1
            for (i = 1; i <= last; i++) {
                print queue[i]
                n = split(below[queue[i]], words, " ")
                for (k = 2; k <= n; k++)
                    if (words[k] in below && !(words[k] in seen)) { seen[words[k]] = 1; queue[++last] = words[k] }
            }
        }' "$top/crates.txt"
}

# build NAME TIME: proves the program's crates and builds it, and says as NAME how far it is; it takes so much TIME at first.
# Where that fails the status is 70.
build() {
    name=$1
    fail() {
        echo "$name: $1" >&2
        exit 70
    }
    command -v rt >/dev/null || fail "the program isn't built, and the toolchain's command rt isn't here to prove and build it"
    total=$(list_crates | wc -l)
    echo "$name: proving and building $total crates, which takes $2 of processor time the first time" >&2
    log=$top/crates/$crate/out.log
    done_count=0
    (cd "$top/crates/$crate" && rt run </dev/null 2>&1) | tee "$log" | while read -r first crate_name rest; do
        case $first-$crate_name in
            crate-fam*)
                done_count=$((done_count + 1))
                echo "$name: ${crate_name%:} is proved ($done_count of $total)" >&2
                ;;
        esac
    done
    if grep -q '^logic=proved' "$log" && [ -x "$program" ]; then
        { rt version && rt_file; } >"$built"
    else
        fail "the program was not built; crates/$crate/out.log says why"
    fi
}
