# What a crate of this repository needs, for the programs beside this file. TOP is the top of the repository.

# The lines of a crates.txt without its comments.
lines_of() { sed -e 's/#.*//' -e 's/[[:space:]]*$//' "$1" | grep . || true; }

# The line of a crate in this repository, or nothing for a crate of the kit.
line_of() { lines_of "$TOP/crates.txt" | grep -E "^$1( [a-z]+)*:" || true; }

# The crates and all that they need in this repository, each once.
needed_by() {
    local waiting=("$@") seen=" " name line dep
    while ((${#waiting[@]})); do
        name=${waiting[0]} waiting=("${waiting[@]:1}")
        line=$(line_of "$name")
        if [[ -z $line || $seen == *" $name "* ]]; then continue; fi
        seen+="$name "
        for dep in ${line#*:}; do waiting+=("$dep"); done
    done
    tr ' ' '\n' <<<"$seen" | grep . | sort
}
