# Reads and writes that fail, take nothing, come short or are interrupted: the first, the second, and so on until a run makes
# fewer. Those of scripts, replies (each reply is flushed, so a write at once is a flush), standard error, FILE and PATH.

kit=$(dirname "$(rt doc)")
"$kit/toolchain/bin/clang" -fuse-ld=lld -shared -fPIC -O1 -nostdlib -o faults.so "$top/tests/faults.c" ||
    complain "tests/faults.c can't be compiled by the clang of the kit, $kit"

# (a sweep ends behind so many calls at the latest; the longest has about two thousand)
most=10000
mkdir runs

# sweep CALL DESCRIPTOR PIECE KIND ARGUMENT..: runs the program again and again. Each call on that descriptor, read or write, passes at most
# PIECE bytes (0: as many as asked for). In the first run the first of them ends as KIND says, in the second run the second, until
# a run makes fewer; with $all set each later one ends so, too. The file `statuses` has a row a run, with a byte where that call came.
sweep() {
    call=$1 descriptor=$2 piece=$3 kind=$4 number=1
    shift 4
    name="bpfdb $*: each $call of descriptor $descriptor (pieces of $piece) in turn: $kind${all:+, and each later one}"
    : > statuses
    while [ "$number" -le "$most" ]; do
        FAULT_CALL=$call FAULT_DESCRIPTOR=$descriptor FAULT_PIECE=$piece FAULT_KIND=$kind FAULT_NUMBER=$number FAULT_ALL=$all \
            LD_PRELOAD=./faults.so "$program" "$@" < script > runs/$number.out 2> runs/$number.err 9> met
        echo "$number $?" >> statuses
        [ -s met ] || break
        number=$((number + 1))
    done
    count=$((count + number))
}

# hold WHAT: holds the runs of the last sweep against what is stated. The last of them, in which no call ended so, comes to all of it,
# as do those in which a call was interrupted. Of the others: where the output fails (WHAT is output) the status is 2, and a beginning of the
# output came; so with standard error; where the input fails what the lines before it print was written; where
# a file fails (files) it is named, first FILE and then PATH.
hold() {
    awk -v what="$1" -v kind="$kind" -v all="$all" -v piece="$piece" -v status="$status" -v last="$number" '
        function text_of(path, all) {
            all = ""
            RS = "\001"
            getline all < path
            close(path)
            RS = "\n"
            return all
        }
        # is_cut(text, whole, bytes): it is a beginning, with so many bytes at least where the pieces are single bytes. Where each later call
        # ends so, too, there are no more; else what was left in a buffer may have come behind the call.
        function is_cut(text, whole, bytes) {
            if (text != substr(whole, 1, length(text))) return 0
            if (all == "") return piece != 1 || length(text) >= bytes
            return piece == 1 ? length(text) == bytes : length(text) < length(whole)
        }
        function is_told(number) {
            if (found != 2) return 0
            if (what == "output") return is_cut(out, stated, number - 1) && err == "cannot write output\n"
            if (what == "errors") return out == "" && is_cut(err, told, number - 1)
            if (what == "input") return out == substr(stated, 1, lengths[number]) && err == "cannot read input\n"
            if (err == "cannot read program\n" && !is_context) return out == ""
            is_context = 1
            return out == "" && err == "cannot read context\n"
        }
        BEGIN {
            stated = text_of("stated")
            told = text_of("told")
            while ((getline row < "ends") > 0) { split(row, words, " "); at[++lines] = words[1]; printed[lines] = words[2] }
            size = text_of("script")
            step = piece ? piece : length(size)
            for (n = 0; n < length(size) + step; n += step) {
                while (line < lines && at[line + 1] <= n) line++
                lengths[++calls] = printed[line] + 0
            }
            while ((getline row < "statuses") > 0) {
                split(row, words, " ")
                found = words[2]
                out = text_of("runs/" words[1] ".out")
                err = text_of("runs/" words[1] ".err")
                if (words[1] == last || kind == "interrupted" ? found == status && out == stated && err == told : is_told(words[1])) continue
                printf "  call %d: status %d, %d bytes of output, on standard error: %s\n", words[1], found, length(out), err
                if (++wrong == 5) break
            }
            exit wrong > 0
        }
    ' > wrong && [ "$number" -le "$most" ] && return
    complain "$name"
    cat wrong
}

# hold_bytes: the same of an output that has zero bytes.
hold_bytes() {
    while read -r run found; do
        [ "$run" = "$number" ] || [ "$kind" = interrupted ] && wanted=0 || wanted=2
        length=$(wc -c < runs/"$run".out)
        [ "$wanted" = 2 ] || [ "$length" = "$(wc -c < stated)" ] || length=none
        [ "$found" = "$wanted" ] && head -c "$length" stated | cmp -s - runs/"$run".out && continue
        complain "$name: call $run: status $found, $(wc -c < runs/"$run".out) bytes"
    done < statuses
}

# hold_told: in each run of the last sweep the whole output came, and on standard error a beginning of what is told.
hold_told() {
    for run in $(seq "$number"); do
        cmp -s stated "runs/$run.out" && head -c "$(wc -c < "runs/$run.err")" told | cmp -s - "runs/$run.err" && continue
        complain "$name: call $run: $(wc -c < "runs/$run.out") bytes of output, on standard error: $(cat "runs/$run.err")"
    done
}

# state STATUS OUTPUT ERRORS: what the command line of the next sweeps comes to; the texts are as printf's %b reads them.
state() {
    status=$1
    printf '%b' "$2" > stated
    printf '%b' "$3" > told
}

# output PIECE KIND ARGUMENT.., errors, input, files: the sweeps over these, where FILE is called program, and PATH context.
output() {
    sweep write 1 "$@"
    hold output
}
errors() {
    sweep write 2 "$@"
    hold errors
}
input() {
    sweep read 0 "$@"
    hold input
}
files() {
    sweep read 3 "$@"
    hold files
    [ "$number" -gt "$reads" ] || complain "$name: there are but $((number - 1)) reads"
}

# flushed: the last sweep, over the output in whole pieces, met a write for each reply: each is flushed, refusals too, and a line without
# one isn't. (The reply to a last line without a line feed is in no row of `ends`.)
flushed() {
    replies=$(awk -v size="$(wc -c < stated)" '$2 > told { told = $2; replies++ } END { print replies + (size > told) }' ends)
    [ "$number" -eq $((replies + 1)) ] || complain "$name: $((number - 1)) writes, for $replies replies"
}

# The program that the script works on: every kind of place, and of what is shown. (call 1 is the helper lookup.)
bytes program b7 00 00 00 01 00 00 00 85 10 00 00 01 00 00 00 EXIT 72 0a ff ff 07 00 00 00 EXIT \
    71 30 00 00 00 00 00 00 85 00 00 00 01 00 00 00 EXIT
bytes context 01 02 03 04 05 06 07 08

# typed LINE REPLIES: one more line of the script, and what it is answered, as printf's %b reads them.
typed() {
    printf '%b\n' "$1" >> script
    printf '%b' "$2" >> stated
    echo "$(wc -c < script) $(wc -c < stated)" >> ends
}

# begin_script: no line yet. (`ends` has a row a line: how many bytes of the script, and of the replies, go up to its end.)
begin_script() {
    : > script
    : > stated
    : > ends
    : > told
}

begin_script
zeros='r3=0x0 r4=0x0 r5=0x0 r6=0x0 r7=0x0 r8=0x0 r9=0x0 r10=0x200000200'
typed 'info regs' "r0=0x0 r1=0x100000000 r2=0x8 $zeros\nat 0: mov r0, 1\n"
typed 'info frames' 'depth 0\n'
typed 'info breaks' 'none\n'
typed 'info history' '0 moves, 0 commands, 0 of 65536 bytes\n'
typed 'info trace' 'trace 0\n'
typed 'frob' 'refused Q1: unknown command\n'
typed 'stepi 0' 'refused Q2: wrong argument\n'
typed 'reverse-stepi' 'refused Q4: no kept step\n'
typed 'undo' 'refused Q5: fewer kept commands\n'
typed 'finish' 'refused Q9: outermost frame\n'
typed 'break 3' 'ok\n'
typed 'break 3' 'refused Q11: not there or already there\n'
typed 'watch 0x2000005ff' 'ok\n'
typed 'info breaks' 'break 3\nwatch 0x2000005ff\n'
typed 'stepi' '1 forward; done; at 1: callf L3\n'
typed 'nexti' '1 forward; break; at 3: stb [r10-1], 7\n'
typed 'info frames' 'depth 1\nreturns to 2 r6=0x0 r7=0x0 r8=0x0 r9=0x0\n'
typed 'continue' '1 forward; watch; at 4: exit\n'
typed 'last-write 0x2000005ff' 'changed 1 moves back: 0x0 to 0x7\n'
typed 'x 0x2000005fe 2' '0x2000005fe: 0007\n'
typed 'rc' '1 back; break; at 3: stb [r10-1], 7\n'
typed 'delete 3' 'ok\n'
typed 'unwatch 0x2000005ff' 'ok\n'
typed 'finish' '2 forward; done; at 2: exit\n'
typed 'reverse-nexti' '3 back; done; at 1: callf L3\n'
typed 'stepi' '1 forward; done; at 3: stb [r10-1], 7\n'
typed 'reverse-finish' '1 back; done; at 1: callf L3\n'
typed 'set reg r6 0x10' 'ok\n'
typed 'set mem 0x100000000 ff' 'ok\n'
typed 'set cell 0 1 0102030405060708' 'ok\n'
typed 'set pc 2' 'ok\n'
typed 'set reg r10 1' 'refused Q7: register not writable\n'
typed 'set pc 9' 'refused Q8: no instruction starts there\n'
typed 'set cell 1 0 00' 'refused Q14: no such cell or wrong length\n'
typed 'x 0 1' 'refused Q6: address not present\n'
typed 'info history' '5 moves, 5 commands, 81 of 65536 bytes\n'
typed 'continue' '1 forward; end; exited at 2: r0 0x1\n'
typed 'stepi' 'refused Q3: the machine has ended\n'
typed 'disas 0 2' '0: mov r0, 1\n1: callf L3\n'
typed 'last-write 0x300000008' 'changed 3 moves back: 0x0 to 0x1\n'
typed 'last-write 0x200000000' 'not changed in 6 kept moves\n'
typed 'undo 2' '2 back; done; at 1: callf L3\n'
typed 'redo' '1 redone; done; at 2: exit\n'
typed 'redo 0x7' '1 redone; all; exited at 2: r0 0x1\n'
typed 'redo' 'refused Q13: nothing to redo\n'
typed 'undo 2' '2 back; done; at 1: callf L3\n'
typed 'reverse-stepi 5' '4 back; start; at 0: mov r0, 1\n'
typed 'continue' '3 forward; limit; at 4: exit\n'
typed 'reverse-continue' '3 back; start; at 0: mov r0, 1\n'
typed '' ''
typed ' \t\r' ''
typed '\tset pc\t5\r' 'ok\n'
typed 'stepi' '1 forward; end; fault access 0x0 at 5\n'
typed 'set pc 6' 'ok\n'
typed 'stepi' '1 forward; end; fault token 0x100000000 at 6\n'
typed 'undo 4' '4 back; done; at 0: mov r0, 1\n'
for byte in 0 1 2 3; do
    typed "watch 0x10000000$byte" 'ok\n'
done
typed 'watch 0x100000004' 'refused Q10: table is full\n'
typed 'quit now' 'refused Q2: wrong argument\n'
printf 'info trace' >> script
printf 'trace 0\n' >> stated
status=0
debug='debug -m context --maps 8x2 --steps 3 program'

# (the words of $debug are without blanks)
all=''
input 1 fail $debug
all=all
output 1 fail $debug
for all in '' all; do
    input 7 fail $debug
    input 0 fail $debug
    output 0 fail $debug
    [ -n "$all" ] || flushed
    output 7 none $debug
    output 0 none $debug
done
all=''
input 2 interrupted $debug
input 0 interrupted $debug
output 7 interrupted $debug
output 0 interrupted $debug

# Lines about as long as a line may be, and `quit`.
begin_script
long=$(printf '%01021d' 0)
q12='refused Q12: line too long\n'
for more in 00 000; do
    typed "$long$more" 'refused Q1: unknown command\n'
    typed 'stepi' '1 forward; done; at 1: callf L3\n'
    typed 'undo' '1 back; done; at 0: mov r0, 1\n'
done
typed "${long}000\r" "$q12"
typed "${long}0000" "$q12"
typed "${long}00000" "$q12"
typed 'stepi' '1 forward; done; at 1: callf L3\n'
status=0
for all in '' all; do
    input 100 fail $debug
done
all=''
input 100 interrupted $debug
output 100 none $debug
begin_script
typed 'stepi' '1 forward; done; at 1: callf L3\n'
typed 'quit' ''
status=0
input 1 fail $debug
input 7 fail $debug
printf 'stepi\nstepi\n' >> script
input 1 fail $debug
: > script

# Scripts whose first line is a line feed alone, the same without it, and one of a line feed alone, in pieces of one byte and of seven.
for lines in 'stepi undo' ' stepi undo' ' '; do
    begin_script
    case $lines in ' '*) typed '' '' ;; esac
    case $lines in
        *undo)
            typed 'stepi' '1 forward; done; at 1: callf L3\n'
            typed 'undo' '1 back; done; at 0: mov r0, 1\n' ;;
    esac
    status=0
    for piece in 1 7; do
        input $piece fail $debug
        input $piece interrupted $debug
        output $piece fail $debug
    done
    output 0 fail $debug
    flushed
done
: > script

# The output of the other subcommands, and of help.
printf 'mov r0, 42\nexit\n' > program.s
bytes answer b7 00 00 00 2a 00 00 00 EXIT
words=$text
printf 'stepi\nset reg r0 7\nundo\nredo\n' > obeyed
printf 'stepi\nfinish\n' > refused
printf 'mov r0, 0\njne r0, 7, on\nexit\non: exit\n' > jump.s
for all in '' all; do
    for kind in fail none interrupted; do
        [ "$all$kind" != allinterrupted ] || continue
        for piece in 0 1; do
            state 0 '0x2a\n' ''
            output $piece $kind run --listing program.s
            state 0 "$words" ''
            sweep write 1 $piece $kind asm program.s
            hold_bytes
            state 0 'exited at 1: r0 0x2a\n-2 r0 = 0x2a; 0: mov r0, 42\n' ''
            output $piece $kind origin answer
            state 0 'at 1: exit\n-1 r0 = 0x7; edit\n' ''
            output $piece $kind origin --script obeyed answer
            state 0 '1 0: mov r0, 42; r0 = 0x2a\n2 1: exit\nexited at 1: r0 0x2a\n' ''
            output $piece $kind trace answer
            state 0 '2 1: jne r0, 7, L3; r0 = 0x0; jumped\nexited at 3: r0 0x0\n' ''
            output $piece $kind trace --branches --listing jump.s
            state 0 '1 0: mov r0, 42\n1 1: exit\nexited at 1: r0 0x2a\n' ''
            output $piece $kind trace --profile answer
            state 0 '0 1\n1 2\n' ''
            output $piece $kind lines program.s
            state 0 'mov r0, 42\nexit\n' ''
            output $piece $kind disasm answer
            state 0 'ok 2 instructions in 2 slots\n' ''
            output $piece $kind check answer
        done
        cp "$parts/help/check.txt" stated
        status=0
        output 100 $kind check --help
    done
done
all=''

# Standard error: a fault of the command line, of a file, of what is in it, and of a run.
bytes endless 05 00 ff ff 00 00 00 00
: > empty
object arrays
"$program" link arrays.o > linked 2> /dev/null
for all in '' all; do
    for kind in fail none interrupted; do
        [ "$all$kind" != allinterrupted ] || continue
        for piece in 0 1; do
            state 2 '' 'cannot read missing\n'
            errors $piece $kind run missing
            state 2 '' 'refused C1: empty program\n'
            errors $piece $kind debug empty
            state 2 '' 'refused V2: address not present\n'
            errors $piece $kind origin answer 0
            state 2 '' 'refused Q9: outermost frame\n'
            errors $piece $kind origin --script refused answer
            state 1 '' 'step limit 7 reached at 0\n'
            errors $piece $kind run --steps 7 endless
            cp linked stated
            printf '%s\n' '--maps 8x2,16x256' 'map 0: counts' 'map 1: names' > told
            sweep write 2 $piece $kind link arrays.o
            hold_bytes
            hold_told
            state 1 '' 'fault access 0x0 at 0\n'
            printf 'ldxb r0, [r1+0]\nexit\n' > fault.s
            errors $piece $kind run --listing fault.s
            "$program" frob 2> told
            : > stated
            status=2
            errors $piece $kind frob
        done
    done
done
all=''

# Files: a program that is cut, and runs nevertheless, would end with another result.
bytes program b7 00 00 00 01 00 00 00 EXIT b7 00 00 00 02 00 00 00 EXIT
bytes load 71 10 07 00 00 00 00 00 EXIT
for all in '' all; do
    for piece in 1 8 0; do
        case $piece in
            1) reads=33 ;;
            8) reads=5 ;;
            0) reads=2 ;;
        esac
        state 0 '0x1\n' ''
        files $piece fail run program
        state 0 'ok 4 instructions in 4 slots\n' ''
        files $piece fail check program
        state 0 '' ''
        files $piece fail debug program
        cp program.s listing
        mv program words
        cp listing program
        reads=2
        state 0 "$words" ''
        files $piece fail asm program
        state 0 '0x2a\n' ''
        files $piece fail run --listing program
        cp load program
        state 0 '0x8\n' ''
        files $piece fail run -m context program
        mv words program
        mv context words
        cp obeyed context
        state 0 'at 1: exit\n-1 r0 = 0x7; edit\n' ''
        files $piece fail origin --script context program
        mv words context
    done
done
all=''
for piece in 1 0; do
    reads=2
    state 0 '0x1\n' ''
    files $piece interrupted run program
    cp load words
    mv program kept
    mv words program
    state 0 '0x8\n' ''
    files $piece interrupted run -m context program
    mv kept program
    mv context words
    cp obeyed context
    state 0 'at 1: exit\n-1 r0 = 0x7; edit\n' ''
    files $piece interrupted origin --script context program
    mv words context
done

# asks PACKET ANSWER: one more packet of what gdb sends, and what it is answered.
asks() {
    printf '%s' "$1" >> script
    printf '%s' "$2" >> stated
    echo "$(wc -c < script) $(wc -c < stated)" >> ends
}

# A step, what gdb understands, the rest of the program, and the way back: what is read before a read fails is answered, and a beginning of the
# answers comes before a failed write.
begin_script
asks '$s#73' '+$T05thread:0;0a:0002000002000000;0b:0800000000000000;#ef'
asks '$qSupported:swbreak+#8b' '+$PacketSize=4000;ReverseStep+;ReverseContinue+;swbreak+;vContSupported+;QStartNoAckMode+;ConditionalBreakpoints+#56'
asks '$c#63' '+$O65786974656420617420313a20723020307832610a#25$T05replaylog:end;thread:0;0a:0002000002000000;0b:0800000000000000;#6a'
asks '$bs#d5' '+$T05thread:0;0a:0002000002000000;0b:0800000000000000;#ef'
status=0
gdb='gdb --registers bpf answer'
# (the words of $gdb are without blanks)
for all in '' all; do
    for piece in 1 0; do
        input $piece fail $gdb
        output $piece fail $gdb
        output $piece none $gdb
    done
done
all=''
input 1 interrupted $gdb
output 1 interrupted $gdb
