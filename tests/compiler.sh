# For scripts that have the kit's compiler work on one crate over libraries that lie built: `rt lib` would build those anew.
kit=$(dirname "$(rt doc)")

# Sets `words` to what the compiler is told of a crate: its root, and the libraries that crates.txt names, which lie in these folders
# or in the kit. It is to run in the crate's folder.
tell() { # NAME FOLDER..
    local line library folder root=lib
    line=$(sed 's/#.*//' crates.txt | grep -E "^$1( [^:]*)?:")
    [ ! -f "crates/$1/src/main.rt" ] || root=main
    words=(--crate-name "$1" src/$root.rt --antt-project "$kit/rattle/logic/antt-project.json" --logic-built "$kit/logic_built")
    words+=(--extern "std=$kit/rlibs/std.rlib")
    [[ ${line%%:*} != *' staticlib'* ]] || words+=(--crate-type staticlib)
    for folder in "${@:2}" "$kit/rlibs"; do words+=(-L "dependency=$folder"); done
    for library in ${line#*:}; do
        for folder in "${@:2}" "$kit/rlibs"; do
            if [ -d "$folder/$library.rlib" ]; then
                words+=(--extern "$library=$folder/$library.rlib")
                break
            fi
        done
    done
}
