# What the parts about linked objects read: objects with edits, and what `link` tells of them.

# changed NAME EDIT..: the object, in the file changed.o, with these edits, each PLACE=DIGITS.
changed() {
    cp "$1.o" changed.o
    shift
    for edit in "$@"; do
        place=${edit%%=*} digits=${edit#*=} octal=''
        while [ -n "$digits" ]; do
            octal=$octal$(printf '\\0%o' "0x${digits%"${digits#??}"}") digits=${digits#??}
        done
        digits=${edit#*=}
        { head -c "$place" changed.o; printf '%b' "$octal"; tail -c +$((place + ${#digits} / 2 + 1)) changed.o; } > changed
        mv changed changed.o
    done
}

# text_of FAULT: what is printed of it behind its number; that of E25 is the fault of the program.
text_of() {
    sed -n "s/^$1 //p" <<'FAULTS'
E1 no ELF file
E2 not of 64 bits
E3 not little-endian
E4 no relocatable object
E5 not for BPF
E6 malformed section table
E8 no such code section
E9 more than one code section
E10 malformed code section
E12 code section runs off its end
E13 malformed symbol table
E14 more than one section of maps
E16 malformed relocation table
E17 relocation at no slot, or out of order
E18 relocation against no symbol
E19 symbol is not defined in the object
E20 unknown relocation
E21 call of no function of the program
E22 relocation of a call at no call
E23 reference to data that is no map
E24 relocation of a map at no empty wide load
E27 data longer than 65536 bytes
E28 malformed data section
E29 address in data of what is no data
E30 more than one program in the code section
E31 no such function in the code section
E50 map is a hash, and no array
FAULTS
}

# has_fault FAULT: the last run wrote but one line, which tells this fault.
has_fault() {
    more=''
    { read -r line; read -r more; } < found/err
    [ "$(cat found/status)" = 2 ] && [ -z "$more" ] && ! [ -s found/out ] || return 1
    case $line in
        "refused $1: $(text_of "$1")"* | "refused $1 at slot "[0-9]*": $(text_of "$1")"*) ;;
        *) return 1 ;;
    esac
}

# has_words MAPS STUB WORD..: the last run wrote these words, and told the shapes of the maps, if it knows these, and where there is a stub how many calls it
# answers. (How many maps the object has of its own is as many as shapes, but where the shapes are those of data.)
has_words() {
    shapes=${1%%+*} answered=0
    case $1 in *+*) answered=${1#*+} ;; esac
    {
        case $shapes in *:*) echo "--maps ${shapes#*:}" ;; esac
        [ -z "$2" ] || echo "calls answered by --helper: $answered"
    } > wanted/told
    case $shapes in
        0:*) ;;
        *:*) [ "$(echo "${shapes#*:}" | tr , '\n' | wc -l)" -eq "${shapes%%:*}" ] || return 1 ;;
    esac
    shift 2
    grep -v '^map [0-9]*: ' found/err > found/told
    [ "$(cat found/status)" = 0 ] && cmp -s wanted/told found/told && [ "$(od -An -v -tx1 found/out | tr -d ' \n')" = "$(printf '%s' "$@")" ]
}
