# Writes the options of a table, which is read first, into a template of completions for the shell of that name: into a line with
# @OPTIONS@, and for bash into one with @VALUES@ those that take a value.
BEGIN { FS = " [|] " }

FNR == NR {
    if (!/^--/) next
    option = $1
    sub(/ .*/, "", option)
    value = substr($1, length(option) + 2)
    options = options (options == "" ? "" : " ") option
    if (value != "") values = values (values == "" ? "" : " | ") option
    lines["zsh"] = lines["zsh"] sprintf("        '%s[%s]%s' \\\n", option, $2, value == "" ? "" : ":" value ":")
    lines["fish"] = lines["fish"] sprintf("complete -c teddertempo -l %s%s -d '%s'\n", substr(option, 3), value == "" ? "" : " -x", toupper(substr($2, 1, 1)) substr($2, 2))
    next
}

/@OPTIONS@/ && shell != "bash" { printf "%s", lines[shell]; next }

{
    sub(/@OPTIONS@/, options)
    sub(/@VALUES@/, values)
    print
}
