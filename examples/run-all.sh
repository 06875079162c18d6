#!/bin/sh
# Runs each example on a new database file, compares what it prints with the text beside it, and says which differ. Those of a shop
# are two runs on one file; a file that is to run full has 65 pages.
here=$(CDPATH= cd -- "$(dirname -- "$0")" && pwd) || exit 1
isp=$here/../isp
folder=$(mktemp -d) || exit 1
trap 'rm -rf "$folder"' EXIT
failed=0

# Runs the script of that name on the file, and compares.
try() {
    "$isp" "$2" run < "$here/$1.isp" > "$folder/$1.out"
    if cmp -s "$folder/$1.out" "$here/$1.out"; then
        echo "$1: as written"
    else
        echo "$1: another text" >&2
        failed=1
    fi
}

for script in "$here"/*.isp; do
    name=$(basename "$script" .isp)
    case $name in
    shop-*) continue ;;
    esac
    case $name in
    *-full) pages=65 ;;
    *) pages=1024 ;;
    esac
    "$isp" "$folder/$name.db" make --pages $pages --fanout 50 || exit 1
    try "$name" "$folder/$name.db"
done
"$isp" "$folder/shop.db" make --pages 1024 --fanout 50 || exit 1
try shop-open "$folder/shop.db"
try shop-day "$folder/shop.db"
exit $failed
