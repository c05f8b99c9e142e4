# Sourced by tools/archive, tools/unproved, tools/edit and bench/build: where the kit is, what the crates use and where their libraries are,
# and a compiler that keeps the module and the words that it is handed, in the folder `kept`. The kit is for x86-64 alone.
kit=$(dirname "$(rt doc)")
clang=$kit/toolchain/bin/clang

# The kit's toolchain again, by links, at $kept/toolchain. Of several compilations the module and the words that have WORD stay in $kept.
keep_modules() { # WORD
    local one
    mkdir -p "$kept/toolchain/bin"
    for one in "$kit"/toolchain/* "$kit"/toolchain/bin/*; do
        case $one in */bin | */clang) ;; *) ln -s "$one" "$kept/${one#"$kit/"}" ;; esac
    done
    cat >"$kept/toolchain/bin/clang" <<END
#!/bin/sh
case " \$* " in *" $1 "*) cp module.bc "$kept/module.bc" && printf '%s\n' "\$@" >"$kept/words" ;; esac
exec "$clang" "\$@"
END
    chmod +x "$kept/toolchain/bin/clang"
}

# The kept module as text.
module_as_text() {
    "$clang" --target=x86_64-unknown-linux-gnu -S -emit-llvm -x ir "$kept/module.bc" -Xclang -disable-llvm-passes -o -
}

# What a crate uses: by the crates.txt of the current folder, and std; or as the kit's library.
uses_of() { # CRATE
    if [ -d "crates/$1" ]; then
        echo std
        sed -nE "s/^$1( +staticlib)? *: *//p" crates.txt | tr -s ' ' '\n'
    else
        sed -n 's/^dep //p' "$kit/rlibs/$1.rlib/format"
    fi
}

# The crates below one, of the repository in the current folder and of the kit.
below() { # CRATE
    local seen=" " todo=$1 one
    while [ -n "$todo" ]; do
        one=${todo%% *}
        todo=$(echo ${todo#"$one"})
        case $seen in *" $one "*) continue ;; esac
        seen+="$one "
        todo+=" $(uses_of "$one" | paste -sd' ')"
        todo=$(echo $todo)
    done
    tr ' ' '\n' <<<"$seen" | grep -vxF -e '' -e "$1"
}

# rattle's words for a crate, for where its src/ stands: over the libraries that `rt check` left in each out/ of the current folder's crates.
words_of() { # CRATE
    local one root=src/lib.rt
    [ ! -f "crates/$1/src/main.rt" ] || root=src/main.rt
    printf '%s\n' --crate-name "$1" "$root"
    ! grep -qE "^$1 +staticlib" crates.txt || printf '%s\n' --crate-type staticlib
    uses_of "$1" | while read -r one; do
        echo --extern
        if [ -d "crates/$one" ]; then echo "$one=$PWD/crates/$one/out/rlib/$one.rlib"; else echo "$one=$kit/rlibs/$one.rlib"; fi
    done
    below "$1" | while read -r one; do [ ! -d "crates/$one" ] || printf '%s\n' -L "dependency=$PWD/crates/$one/out/rlib"; done
    printf '%s\n' -L "dependency=$kit/rlibs" --antt-project "$kit/rattle/logic/antt-project.json" --logic-built "$kit/logic_built"
}
