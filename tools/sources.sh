# What the program is built from. Read by ./prove, ./emu and .ci/run.

# Each crate that emu_cli stands on, and emu_cli, a line each, followed by the repository's crates that it names.
crates_below() {
    awk '
        { sub(/#.*/, "") }
        $1 ~ /:$/ { name = substr($1, 1, length($1) - 1); $1 = ""; stands_on[name] = $0 }
        function visit(name, parts, count, i, here) {
            if (name in seen) return
            seen[name] = 1
            count = split(stands_on[name], parts, " ")
            here = ""
            for (i = 1; i <= count; i++) if (parts[i] in stands_on) { visit(parts[i]); here = here " " parts[i] }
            print name here
        }
        END { visit("emu_cli") }
    ' "$1/crates.txt"
}

# What a proof of these crates reads: files and folders.
sources() {
    local name folder
    echo "$1/crates.txt"
    echo "$1/HANDLES"
    while read -r name _; do
        for folder in "$1/crates/$name"/{src,specs,proofs}; do
            if [ -d "$folder" ]; then echo "$folder"; fi
        done
    done < <(crates_below "$1")
}

# A file of them is newer than a given file.
is_any_newer() {
    local places
    mapfile -t places < <(sources "$1")
    [ -n "$(find "${places[@]}" -type f -newer "$2" -print -quit)" ]
}

# The sum of them all, with their names.
sum_of_sources() {
    local places
    mapfile -t places < <(cd "$1" && sources .)
    (cd "$1" && find "${places[@]}" -type f -print0 | LC_ALL=C sort -z | xargs -0 sha256sum | sha256sum | cut -d' ' -f1)
}

# Writes down that the program which is built is proved, and from these sources.
note_proved() {
    sum_of_sources "$1" >"$1/crates/emu_cli/out/proved"
}
