# For checks/view and checks/page, which source this file: the folder of an example's run, and what holds of a page.

# prepare NAME: a folder NAME with script and files of the example.
prepare() {
    mkdir "$1" && cp "$top/examples/$1/script" "$1"
    if [ -e "$top/examples/$1/files" ]; then
        (cd "$1" && . "$top/examples/$1/files")
    else
        cp "$top/examples/$1"/file-[ab] "$1"
    fi
}

# one_file NAME: the page of a run holds its JSON, with `\u003c` for each `<`, and names no other file.
one_file() {
    local name=$1
    check "$name: the page holds the JSON" cmp -s <(sed 's/</\\u003c/g' "$name.json") \
        <(sed -n "s/^<script type='application\/json' id='run'>\(.*\)<\/script>$/\1/p" "$name.page" | tr -d '\n')
    check "$name: the page names no other file" test "$(grep -cE ' (src|href)=|@import|url\((http|/)|fetch\(|import\(' "$name.page")" = 0
}
