# Functions that make the calls of a list on a module, for build.sh here and for tests/modules.sh; it is read by `source` in bash.
#
# A list has a line for each call with its answer, as `greatest_divisor i32:12 i32:18 => i32:6`, in the order in which they are made
# on one instance; numbers are without a sign, and the answer is `trap` where the call traps. A line `! print_i32 i32:5` before it
# says what the call called outside. Lines that begin with # are comments. The call `all`, the last one where it is there, takes
# nothing and has the same answer on an instance of its own.

# Prints the name of a module's source and list: NAME_plain is built of the source of NAME, and has its list.
source_of() {
    echo "${1%_plain}"
}

# Prints the calls of a list but for `all` as commands for spectest-interp (wabt), which runs wasm-interp's interpreter and, unlike
# it, takes arguments and has something to import. The module is to be module.wasm in the folder of the commands.
commands_of() {
    awk '
        BEGIN {
            print "{\"source_filename\": \"calls\", \"commands\": ["
            print "{\"type\": \"module\", \"line\": 0, \"filename\": \"module.wasm\"}"
        }
        !/^[#!]/ && $1 != "all" {
            arguments = ""
            for (i = 2; i <= NF && $i != "=>"; i++) {
                split($i, part, ":")
                arguments = arguments (i > 2 ? ", " : "") "{\"type\": \"" part[1] "\", \"value\": \"" part[2] "\"}"
            }
            print ", {\"type\": \"action\", \"line\": " NR ","
            print "   \"action\": {\"type\": \"invoke\", \"field\": \"" $1 "\", \"args\": [" arguments "]}, \"expected\": []}"
        }
        END { print "]}" }
    ' "$1"
}

# Prints the calls of a folder's calls.json on its module.wasm, and the call `all` by wasm-interp where the module has one, with
# their answers, in the form of a list without comments. What takes longer than ten seconds is stopped, and has no more lines.
answers_of() {
    {
        timeout 10 spectest-interp --enable-threads "$1/calls.json" || true
        timeout 10 wasm-interp --enable-threads --run-all-exports "$1/module.wasm" | grep '^all()' || true
    } 2> /dev/null | sed -n -E '
        s/^([A-Za-z0-9_]+)\((.*)\) => (.*)$/\1 \2 => \3/; t found
        s/^called host spectest\.([a-z0-9_]+)\((.*)\) =>.*$/! \1 \2/; t found
        b
        :found
        s/, / /g; s/  =>/ =>/; s/=> error:.*/=> trap/; p
    '
}

# The modules of which threads share a memory: the program doesn't rewrite them with --exact.
shared_memories="shared newer/atomics"

# Whether a module can be rewritten with --exact.
takes_exact() {
    [[ " $shared_memories " != *" $1 "* ]]
}

# The names of the program's rules that rewrite with --exact alone.
exact_rules_of() {
    "$1" --list-rules=json | sed -n 's/^{"exact":true,.*"name":"\([a-z_0-9]*\)".*/\1/p'
}

modules_here=$(cd "$(dirname "${BASH_SOURCE[0]}")" && pwd)

# What wabt has to be told of the modules in the folder newer.
newer_features="--enable-threads --enable-tail-call --enable-exceptions"

# Whether node takes a module.
node_takes() {
    node -e 'new WebAssembly.Module(require("fs").readFileSync(process.argv[1]))' "$1" 2> /dev/null
}

# Makes the calls of the module NAME on each of these modules, by node, and writes them with their answers to MODULE.answers, in the form
# of a list without comments. Where NAME is made of bytes, and node doesn't take it, the modules are run in older codes (newer.py).
answers_by_node() {
    local name=$1 module
    shift
    if [ ! -e "$modules_here/$name.bytes" ] || node_takes "$modules_here/$name.wasm"; then
        node "$modules_here/calls.mjs" "$modules_here/$name.calls" "$@"
        return
    fi
    "$modules_here/newer.py" older "$@"
    node --experimental-wasm-gc --experimental-wasm-typed-funcref "$modules_here/calls.mjs" "$modules_here/$name.calls" "${@/%/.older}"
    for module in "$@"; do mv "$module.older.answers" "$module.answers"; done
}
