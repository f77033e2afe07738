# Completion of bpfdb, bpfdb-shell, bpfdb-page, bpfdb-dap and bpfdb-context for fish, made by docs/editors.sh.
function __bpfdb_of_file
    set -l words (commandline -opc)
    set -l bpfdb bpfdb
    set -q BPFDB; and set bpfdb $BPFDB
    string match -q -r '(^|/)bpfdb$' -- $words[1]; and set bpfdb $words[1]
    set -l file
    set -l section
    set -l before
    # (a file may stand behind the word that is typed, too)
    for each in $words[2..-1] (commandline -o)
        test "$before" = --section; and set section --section=$each
        string match -q -- '--section=*' $each; and set section $each
        set each (string replace -r '^~' $HOME -- $each)
        test -f "$each"; and set file $each
        set before $each
    end
    test -n "$file"; or return
    switch $argv[1]
        case section
            $bpfdb link '--section=?' -- $file 2>&1 >/dev/null | string replace -f -r '^refused E8: no such code section: ' '' | string split ', '
        case entry
            $bpfdb link $section '--entry=?' -- $file 2>&1 >/dev/null | string replace -f -r '^refused (E31: no such function in the code section|E9: .* chooses one): ' '' | string split ', '
        case only
            timeout 2 $bpfdb test -- $file </dev/null 2>/dev/null | string replace -f -r '^(not )?ok [0-9]* - ' ''
    end
end
complete -c bpfdb -n __fish_use_subcommand -f -a run -d "runs the program until it ends"
complete -c bpfdb -n __fish_use_subcommand -f -a trace -d "runs the program until it ends, and shows each step"
complete -c bpfdb -n __fish_use_subcommand -f -a debug -d "obeys the commands of a script from standard input"
complete -c bpfdb -n __fish_use_subcommand -f -a origin -d "runs the program until it ends, or obeys a script"
complete -c bpfdb -n __fish_use_subcommand -f -a whynot -d "runs the program until it ends, or obeys a script"
complete -c bpfdb -n __fish_use_subcommand -f -a diff -d "runs two programs, or one on two contexts, step by step"
complete -c bpfdb -n __fish_use_subcommand -f -a asm -d "assembles the listing FILE, and doesn't check the program"
complete -c bpfdb -n __fish_use_subcommand -f -a disasm -d "checks the program and writes it as a listing"
complete -c bpfdb -n __fish_use_subcommand -f -a lines -d "shows which line of the listing FILE has which instruction"
complete -c bpfdb -n __fish_use_subcommand -f -a check -d "checks the program"
complete -c bpfdb -n __fish_use_subcommand -f -a load -d "tells what is made of FILE, and runs nothing"
complete -c bpfdb -n __fish_use_subcommand -f -a link -d "links a code section of the object FILE"
complete -c bpfdb -n __fish_use_subcommand -f -a gdb -d "answers gdb, which sends packets to standard input"
complete -c bpfdb -n __fish_use_subcommand -f -a test -d "runs the tests of the file FILE"
complete -c bpfdb -n __fish_use_subcommand -f -a batch -d "runs cases from standard input, programs and contexts in hexadecimal"
complete -c bpfdb -n __fish_use_subcommand -f -a help -d "describes a subcommand"
complete -c bpfdb -n "__fish_seen_subcommand_from run trace debug origin whynot diff gdb" -s m -l mem -r -F -d "The file that holds the context"
complete -c bpfdb-shell -s m -l mem -r -F -d "The file that holds the context"
complete -c bpfdb-page -s m -l mem -r -F -d "The file that holds the context"
complete -c bpfdb -n "__fish_seen_subcommand_from run trace debug origin whynot diff gdb" -l packet -x -d "The context is a packet of the capture that -m names"
complete -c bpfdb-shell -l packet -x -d "The context is a packet of the capture that -m names"
complete -c bpfdb-page -l packet -x -d "The context is a packet of the capture that -m names"
complete -c bpfdb -n "__fish_seen_subcommand_from run trace debug origin whynot diff disasm check load gdb batch" -l maps -x -d "The program's maps"
complete -c bpfdb-shell -l maps -x -d "The program's maps"
complete -c bpfdb-page -l maps -x -d "The program's maps"
complete -c bpfdb -n "__fish_seen_subcommand_from run trace debug origin whynot diff gdb" -l regs -x -d "Values that registers have before the first step"
complete -c bpfdb-shell -l regs -x -d "Values that registers have before the first step"
complete -c bpfdb-page -l regs -x -d "Values that registers have before the first step"
complete -c bpfdb -n "__fish_seen_subcommand_from debug origin whynot diff gdb" -l journal -x -d "The size of the journal"
complete -c bpfdb-shell -l journal -x -d "The size of the journal"
complete -c bpfdb -n "__fish_seen_subcommand_from run trace debug origin whynot diff gdb batch" -l steps -x -d "The limit of steps for a run"
complete -c bpfdb-shell -l steps -x -d "The limit of steps for a run"
complete -c bpfdb-page -l steps -x -d "The limit of steps for a run"
complete -c bpfdb -n "__fish_seen_subcommand_from trace" -l from -x -d "The number of the first step that is shown"
complete -c bpfdb -n "__fish_seen_subcommand_from trace" -l count -x -d "The most steps that are shown"
complete -c bpfdb -n "__fish_seen_subcommand_from trace origin" -l branches -d "trace shows of these steps the conditional jumps alone"
complete -c bpfdb -n "__fish_seen_subcommand_from trace" -l profile -d "Shows how often each instruction ran"
complete -c bpfdb -n "__fish_seen_subcommand_from trace" -l calls -d "Shows the calls that leave FILE's own code"
complete -c bpfdb -n "__fish_seen_subcommand_from run trace debug origin whynot" -l strict -d "Stops at a read of the stack that nothing wrote"
complete -c bpfdb-shell -l strict -d "Stops at a read of the stack that nothing wrote"
complete -c bpfdb-page -l strict -d "Stops at a read of the stack that nothing wrote"
complete -c bpfdb -n "__fish_seen_subcommand_from run trace debug origin whynot diff disasm check load gdb" -l words -d "FILE is raw words"
complete -c bpfdb-shell -l words -d "FILE is raw words"
complete -c bpfdb-page -l words -d "FILE is raw words"
complete -c bpfdb -n "__fish_seen_subcommand_from run trace debug origin whynot diff disasm check load gdb" -l listing -d "FILE is a listing"
complete -c bpfdb-shell -l listing -d "FILE is a listing"
complete -c bpfdb-page -l listing -d "FILE is a listing"
complete -c bpfdb -n "__fish_seen_subcommand_from run trace debug origin whynot diff disasm lines check load gdb" -l object -d "FILE is an object"
complete -c bpfdb-shell -l object -d "FILE is an object"
complete -c bpfdb-page -l object -d "FILE is an object"
complete -c bpfdb -n "__fish_seen_subcommand_from gdb" -l registers -x -a "x86 riscv bpf" -d "The machine that gdb takes bpfdb for"
complete -c bpfdb -n "__fish_seen_subcommand_from link run trace debug origin whynot diff disasm lines check load gdb" -l section -x -a "(__bpfdb_of_file section)" -d "The code section to link"
complete -c bpfdb-shell -l section -x -a "(__bpfdb_of_file section)" -d "The code section to link"
complete -c bpfdb-page -l section -x -a "(__bpfdb_of_file section)" -d "The code section to link"
complete -c bpfdb -n "__fish_seen_subcommand_from link run trace debug origin whynot diff disasm lines check load gdb" -l entry -x -a "(__bpfdb_of_file entry)" -d "The function of that section at which the program begins; several times"
complete -c bpfdb-shell -l entry -x -a "(__bpfdb_of_file entry)" -d "The function of that section at which the program begins; several times"
complete -c bpfdb-page -l entry -x -a "(__bpfdb_of_file entry)" -d "The function of that section at which the program begins; several times"
complete -c bpfdb -n "__fish_seen_subcommand_from link run trace debug origin whynot diff disasm lines check load gdb" -l entries -x -d "How many entries a map has that the object leaves to its loader"
complete -c bpfdb-shell -l entries -x -d "How many entries a map has that the object leaves to its loader"
complete -c bpfdb-page -l entries -x -d "How many entries a map has that the object leaves to its loader"
complete -c bpfdb -n "__fish_seen_subcommand_from link run trace debug origin whynot diff disasm lines check load gdb" -l helper -x -d "Helpers whose calls are answered by a constant"
complete -c bpfdb-shell -l helper -x -d "Helpers whose calls are answered by a constant"
complete -c bpfdb-page -l helper -x -d "Helpers whose calls are answered by a constant"
complete -c bpfdb -n "__fish_seen_subcommand_from origin whynot" -l script -r -F -d "The script that is obeyed in place of a run"
complete -c bpfdb -n "__fish_seen_subcommand_from link run trace debug origin whynot diff disasm lines check load gdb" -l fields -x -d "Where fields lie that the object asks its loader to move (CO-RE)"
complete -c bpfdb-shell -l fields -x -d "Where fields lie that the object asks its loader to move (CO-RE)"
complete -c bpfdb-page -l fields -x -d "Where fields lie that the object asks its loader to move (CO-RE)"
complete -c bpfdb -n "__fish_seen_subcommand_from link run trace debug origin whynot diff disasm lines check load gdb" -l struct -x -d "The kernel's struct of a packet that the entry takes"
complete -c bpfdb-shell -l struct -x -d "The kernel's struct of a packet that the entry takes"
complete -c bpfdb-page -l struct -x -d "The kernel's struct of a packet that the entry takes"
complete -c bpfdb -n "__fish_seen_subcommand_from link run trace debug origin whynot diff disasm lines check load gdb" -l with -r -F -d "An object whose functions answer what FILE's code calls"
complete -c bpfdb-shell -l with -r -F -d "An object whose functions answer what FILE's code calls"
complete -c bpfdb-page -l with -r -F -d "An object whose functions answer what FILE's code calls"
complete -c bpfdb -n "__fish_seen_subcommand_from link run trace debug origin whynot diff disasm lines check load gdb" -l no-linux -d "Linux's helpers aren't linked by themselves"
complete -c bpfdb-shell -l no-linux -d "Linux's helpers aren't linked by themselves"
complete -c bpfdb-page -l no-linux -d "Linux's helpers aren't linked by themselves"
complete -c bpfdb -n "__fish_seen_subcommand_from link run trace debug origin whynot diff disasm lines check load gdb" -l faithful -d "What is linked so and answers otherwise than in Linux is refused (F4)"
complete -c bpfdb-shell -l faithful -d "What is linked so and answers otherwise than in Linux is refused (F4)"
complete -c bpfdb-page -l faithful -d "What is linked so and answers otherwise than in Linux is refused (F4)"
complete -c bpfdb -n "__fish_seen_subcommand_from link" -s r -l relocatable -d "FILE and each OBJECT as one object is written"
complete -c bpfdb -n "__fish_seen_subcommand_from link" -s o -l output -r -F -d "The file that takes what is linked"
complete -c bpfdb -n "__fish_seen_subcommand_from origin whynot diff" -l lines -x -d "The most lines of moves in an answer"
complete -c bpfdb -n "__fish_seen_subcommand_from origin whynot diff" -l addresses -d "The registers that make addresses are followed"
complete -c bpfdb -n "__fish_seen_subcommand_from whynot diff" -l alone -d "Where the values came from is left out"
complete -c bpfdb -n "__fish_seen_subcommand_from diff" -l other-mem -r -F -d "The second context"
complete -c bpfdb -n "__fish_seen_subcommand_from diff" -l other-packet -x -d "The second context is a packet of the capture that --other-mem names"
complete -c bpfdb -n "__fish_seen_subcommand_from diff" -l trace -r -F -d "The trace of another machine"
complete -c bpfdb -n "__fish_seen_subcommand_from diff" -l writes -d "What both runs leave in the context"
complete -c bpfdb -n "__fish_seen_subcommand_from test" -l only -x -a "(__bpfdb_of_file only)" -d "The tests of this name are run alone"
complete -c bpfdb -n "__fish_seen_subcommand_from test" -l show -x -a "program context options script" -d "A part of the one test that is asked for is written to standard output"
complete -c bpfdb -n "__fish_seen_subcommand_from test" -l cover -d "What no test ran is told behind the report"
complete -c bpfdb -n "__fish_seen_subcommand_from test" -l cover-info -d "What ran is all of standard output"
complete -c bpfdb -n "__fish_seen_subcommand_from test" -l anywhere -d "Files that tests name may lie outside of the folder of FILE"
complete -c bpfdb -n "__fish_seen_subcommand_from run trace debug origin whynot diff disasm lines check load test" -l json -d "Each line of standard output is written as an object of JSON"
complete -c bpfdb -n "__fish_seen_subcommand_from debug" -l questions -d "Lines of the script may ask"
complete -c bpfdb -n "__fish_seen_subcommand_from origin" -l dot -d "The answer is written as a graph for graphviz"
complete -c bpfdb -s h -l help -d "Writes help to standard output"
complete -c bpfdb-shell -s h -l help -d "Writes help to standard output"
complete -c bpfdb-page -s h -l help -d "Writes help to standard output"
complete -c bpfdb-dap -f -s h -l help -d "Writes help to standard output"
complete -c bpfdb -n __fish_use_subcommand -s V -l version -d "Writes the version"
complete -c bpfdb-page -s o -l output -r -F -d "the file to write"
complete -c bpfdb-page -l from -x -d "the first step that is shown"
complete -c bpfdb-page -l count -x -d "how many are shown"
complete -c bpfdb-page -l title -x -d "what the page is called"
complete -c bpfdb-dap -l port -x -d "answers the one editor that comes to this port of this machine instead"
complete -c bpfdb-dap -l over -x -a "gdb bpfdb" -d "what programs are debugged over"
complete -c bpfdb-context -n "not __fish_seen_subcommand_from packet hex struct" -f -a packet -d "of a packet of a capture"
complete -c bpfdb-context -n "not __fish_seen_subcommand_from packet hex struct" -f -a hex -d "of bytes in hexadecimal"
complete -c bpfdb-context -n "not __fish_seen_subcommand_from packet hex struct" -f -a struct -d "of structs by the types of an object"
complete -c bpfdb-context -s o -l output -r -F -d "The file to write"
complete -c bpfdb-context -s h -l help -d "Writes help to standard output"
