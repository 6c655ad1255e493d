# Read by the scripts that run many checks. It compiles tests/large_pages.c, and has each program
# that they start load it: the checks of two crates took 5 percent less processor time so.

# FOLDER: compiles it into a folder. Where this fails, nothing is loaded, and nothing else changes.
use_large_pages() {
    local at
    at=$(cd "$(dirname "${BASH_SOURCE[0]}")" && pwd)
    # the name of what is loaded ends at a space or a colon
    if [[ $1 != *[\ :]* ]] && gcc -O2 -shared -fPIC -o "$1/large_pages.so" "$at/large_pages.c" -ldl 2> /dev/null; then
        export LD_PRELOAD="$1/large_pages.so"
    fi
}
