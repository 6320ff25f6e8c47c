# Where the programs of these sources stand, and whether a program is of these sources. The launcher and the merge gate
# read it, with $root set to the checkout.

# The rows of tools/words, their fields parted by one bar.
rows_of_words() { sed -n '/^#/d; s/ *| */|/g; s/ *$//; /|/p' "$root/tools/words"; }

# The crates of the programs.
crates_of_programs() { rows_of_words | cut -d '|' -f 2 | cut -d ' ' -f 1 | grep -v / | sort -u; }

# The crate of a program, and where its program and its log stand.
of_crate() {
  name_of_crate=$1
  crate=$root/crates/$1
  program=$crate/out/$1
  log=$crate/out/build.log
}

# What the programs are built from, and a program itself, in one sum each.
sum_of_sources() {
  (cd "$root" && find crates crates.txt -name out -prune -o -type f \( -name '*.rt' -o -name '*.antt' -o -name crates.txt \) -print0 |
    LC_ALL=C sort -z | xargs -0 sha256sum | sha256sum)
}
sum_of_program() { sha256sum < "$1" 2> /dev/null; }

# Whether a program stands that was built from the sources with this sum, and is as it was built.
is_of() { [ -x "$1" ] && [ "$(cat "$1.sum" 2> /dev/null)" = "$2$(sum_of_program "$1")" ]; }

# Notes that a program was built from the sources with this sum.
note_sources() { echo "$2$(sum_of_program "$1")" > "$1.sum"; }
