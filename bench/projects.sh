# Projects for Mini, of many modules. This file is read by other scripts (`.`), and writes into the current folder: modules into
# files `NAME.txt`, the shader into `top`, and into `files` what `oil make` is given.

# The same lines of functions for trees and chains: each function calls its like in the modules that its module imports.
functions='
    function begin(file, name) { print "#define_import_path " name > file; files = file " " files }
    function functions(file, count, others, number,    i, j, line) {
        for (i = 1; i <= number; i++) print "#import " others[i] > file
        for (j = 0; j < count; j++) {
            line = "fn f" j "(a) = a + " j
            for (i = 1; i <= number; i++) line = line " + " others[i] "::f" j "(a)"
            print line > file
        }
        close(file)
    }
    function top(name, count,    j, line) {
        print "#import " name > "top"
        line = "entry main = 0"
        for (j = 0; j < count; j++) line = line " + " name "::f" j "(1)"
        print line > "top"
        print "top " files > "files"
    }'

# A tree of so many modules of so many functions, each importing two others.
tree() {
    awk -v n="$1" -v count="$2" "$functions"'
        BEGIN {
            for (m = 1; m <= n; m++) {
                number = 0
                for (k = 2 * m; k <= 2 * m + 1 && k <= n; k++) others[++number] = "m" k
                begin("m" m ".txt", "m" m)
                functions("m" m ".txt", count, others, number)
            }
            top("m1", count)
        }'
}

# A chain of so many modules of so many functions, each importing the one before it.
chain() {
    awk -v n="$1" -v count="$2" "$functions"'
        BEGIN {
            for (m = n; m >= 1; m--) {
                others[1] = "m" (m - 1)
                begin("m" m ".txt", "m" m)
                functions("m" m ".txt", count, others, m > 1 ? 1 : 0)
            }
            top("m" n, count)
        }'
}

# So many imports of one function each, of a module of so many.
imports() {
    awk -v n="$1" -v count="$2" '
        BEGIN {
            print "#define_import_path m" > "m.txt"
            for (j = 0; j < count; j++) print "fn f" j "(a) = a + " j > "m.txt"
            line = "entry main = 0"
            for (i = 0; i < n; i++) {
                print "#import m::f" (i % count) " as g" i > "top"
                line = line " + g" i "(1)"
            }
            print line > "top"
            print "top m.txt" > "files"
        }'
}

# A function of so many summands.
summands() {
    awk -v n="$1" '
        BEGIN {
            line = "fn f0(a) = a"
            for (i = 1; i < n; i++) line = line " + " i
            print "#define_import_path m" > "m.txt"
            print line > "m.txt"
            print "#import m" > "top"
            print "entry main = m::f0(1)" > "top"
            print "top m.txt" > "files"
        }'
}
