# Sourced by run.sh: the functions on which a run's instructions go, of two files that callgrind wrote.

# The functions of a file with their own instructions: `NUMBER NAME` a line. A function that calls itself is one, and the
# library's parameters in `<..>` are left out of its name.
functions() {
    callgrind_annotate --threshold=100 --show=Ir --auto=no "$1" |
        sed -nE "s/^ *([0-9,]+) \([^)]*\) +[^ :]*:([^ ].*)$/\1 \2/p" |
        sed -E "s/ \[[^]]*\]$//; s/'[0-9]+$//; s/::<#[0-9a-f]+>//" |
        awk '{ number = $1; gsub(",", "", number); $1 = ""; sum[substr($0, 2)] += number } END { for (name in sum) print sum[name], name }'
}

# The twenty functions with most instructions in the second file beyond those in the first, as a table: a unit's, and the part of all.
profile() { # the file of the session without a run, that with it, how many units
    { functions "$1" | sed 's/^/-/'; functions "$2"; } |
        awk '{ number = $1; $1 = ""; sum[$0] += number } END { for (name in sum) if (sum[name] > 0) print sum[name] name }' |
        sort -rn |
        awk -v units="$3" '{ number = $1; $1 = ""; all += number; if (NR <= 20) { of[NR] = number; name[NR] = substr($0, 2) } }
            END { for (i = 1; i in of; i++) printf "| `%s` | %.1f | %.1f %% |\n", name[i], of[i] / units, of[i] * 100 / all }'
}
