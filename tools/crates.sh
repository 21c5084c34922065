# Sourced by the commands here, at the top of the tree: what a crate needs by crates.txt, and whether what was built of it is as the source is.

# What stands after a crate's name in its line.
deps_of() { # NAME
    sed -n -e "s/#.*//" -e "s/^[[:space:]]*$1\([[:space:]][^:]*\)*[[:space:]]*://p" crates.txt
}

# The crates of this tree that a crate needs, each after those that it needs, the crate itself last.
needed() { # NAME
    awk -v last="$1" '
        function visit(name,    part, i, n) {
            if (!(name in deps) || name in seen) return
            seen[name]
            n = split(deps[name], part, " ")
            for (i = 1; i <= n; i++) visit(part[i])
            print name
        }
        { sub(/#.*/, ""); i = index($0, ":"); name = substr($0, 1, i - 1); sub(/^[ \t]+/, "", name); sub(/[ \t].*/, "", name) }
        i { deps[name] = substr($0, i + 1) }
        END { visit(last) }' crates.txt
}

# What makes a crate: the boundary's archive is made of its exports.
maker_of() { # NAME
    case $1 in khumsafil) echo khumsafil_c ;; *) echo "$1" ;; esac
}

# The folders that a crate and what it needs are made from.
sources_of() { # NAME
    local name part
    for name in $(needed "$1"); do
        for part in src specs proofs; do [ ! -d "crates/$name/$part" ] || echo "crates/$name/$part"; done
    done
}

# Builds a crate anew where it is not built, or where its source changed since by the times of the files. Where the environment
# variable KHUMSAFIL_NATIVE names a folder that has the file, that one is taken as it stands. Says in `built` which file it is.
have() { # NAME FILE
    local stamp=target/native/$1.stamp
    built=${KHUMSAFIL_NATIVE:-}/$2
    [ -z "${KHUMSAFIL_NATIVE:-}" ] || [ ! -f "$built" ] || return 0
    built=$PWD/target/native/$2
    if [ -f "$built" ] && [ -f "$stamp" ] && [ -z "$(find crates.txt tools/build tools/crates.sh $(sources_of "$(maker_of "$1")") \
        -newer "$stamp" -print -quit)" ]; then
        return
    fi
    tools/build "$1" >&2
}
