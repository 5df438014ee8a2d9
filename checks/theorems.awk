# Holds the theorems of uniqueness to the public functions. Reads the list that checks/functions.awk makes (-v list=FILE, and FILE as the first file), then the
# files of theorems. The type of a theorem must be
#     Fixes P.ended E Q                                       two answers that meet the promise of P are equal
#     FixesPart P.ended X (λ κs x e. x.now) E Q               the same of what an answer shows that is a reference
#     FixesPart P.ended X (λ κs x e. e.1.0.now) E Q           the same of a parameter at exit: e.0 the first, e.1.0 the second, e.1.1.0 the third
# where P leads, through the `use` lines of the file, to the contract at the function's own path, and E is the ensures of that function. (Q may be anything: the type says itself
# that E promises Q and nothing else.) Each function has the theorem of its answer and one for each lent parameter, once each, and there is no other theorem.
# That of a generic function, and of no other, is of every instance: it begins with binders, (x : ..) .. →, and E stands at all of them in their order. It may then ask
#     ((x : T.Denot) (m n : ℕ) → G.R x m → G.R x n → m ≡ n) →     what a bound says of a T gives one number
# where G is a binder, the ghosts of a bound of T. For each instance that has a name there is another, which asks nothing: E stands at the instance, and then at binders and
# at the ghosts of impls (.TheImpl.ghosts at types and at those of other impls).
# What is missing is said; exit status 1.
BEGIN {
    unique = "Rattle.promises.specs.Unique"
    contract = ".specs.contracts."
    proof = ".proofs."
    builtin = "denote.Builtin"
    impl = "^Rattle\\.[a-z_0-9]+\\.specs\\.contracts\\..*\\.TheImpl$"
    ghosts = "^Rattle\\.[a-z_0-9]+\\.specs\\.declared\\..*\\.Ghosts$"
}

FILENAME == list && $1 == "export" { exported[$2] = $3 }
FILENAME == list && $1 == "function" { add_needs($2, $3, $4, $5) }
FILENAME == list && $1 == "instance" { add_instance($2, substr($0, length($1 " " $2) + 1)) }
FILENAME == list { next }

# An item begins at the left margin and goes on while lines are indented.
{ sub(/(^|[ \t])--([ \t].*|$)/, "") }
/^[^ \t]/ { items++; item[items] = $0; file[items] = FILENAME; next }
/[^ \t]/ { item[items] = item[items] " " $0 }

END {
    for (i = 1; i <= items; i++) learn(i, file[i])
    for (k in root) if (k "." in brought || k in own) { split(k, w, SUBSEP); tell(w[1], "`" w[2] "` is the name of a library, and of something else") }
    for (i = 1; i <= items; i++) if (type[i] != "") judge(i, file[i])
    for (k = 1; k <= needs; k++) {
        if (met[need[k]] == 0) say(words(need[k]) " has no theorem")
        if (met[need[k]] > 1) say(words(need[k]) " has " met[need[k]] " theorems:" by[need[k]])
    }
    for (short in exported) if (exported[short] ~ /\.[a-z_0-9]+$/ && !(exported[short] in public)) say(short " is exported, and " exported[short] " is no public function")
    print "promised: " functions " public functions, " lents + 0 " lent parameters, " instances + 0 " instances, " theorems + 0 " theorems"
    exit wrong
}

function say(what) { print "promised: " what > "/dev/stderr"; wrong = 1 }

function tell(f, what) { sub(/^.*\/proofs\//, "", f); say(f ": " what) }

function words(key,    w, at) {
    split(key, w, " ")
    at = substr(key, length(w[1] " " w[2]) + 1)
    gsub(/\./, "::", w[1])
    return w[1] ": " (w[2] == "answer" ? "the answer" : w[2] == "shown" ? "what the answer shows" : "parameter " w[2] ", lent by &mut,") (at == "" ? "" : " at" at)
}

function add_needs(path, lent, answer, generic,    n, k, p) {
    functions++
    public[path] = 1
    generics[path] = generic
    need[++needs] = path " " answer
    if (lent == "-") return
    n = split(lent, p, ",")
    for (k = 1; k <= n; k++) need[++needs] = path " " p[k]
    lents += n
}

# A named instance needs each theorem that its function needs.
function add_instance(path, at,    n, k) {
    instances++
    n = needs
    for (k = 1; k <= n; k++) if (need[k] ~ /^[^ ]+ [^ ]+$/ && index(need[k], path " ") == 1) need[++needs] = need[k] at
}

# The parts of a text at the outermost level of its brackets, each with single spaces.
function parts_of(s, part,    n, k, c, depth, open) {
    split("", part)
    gsub(/[ \t]+/, " ", s)
    for (k = 1; k <= length(s); k++) {
        c = substr(s, k, 1)
        if (c ~ /[({]/) depth++
        if (c ~ /[)}]/) depth--
        if (c == " " && depth == 0) { open = 0; continue }
        if (!open) { n++; open = 1 }
        part[n] = part[n] c
    }
    return n
}

function joined(p, a, b,    k, s) {
    for (k = a; k <= b; k++) s = s (k > a ? " " : "") p[k]
    return s
}

# One item of a file: what it takes in, states or defines.
function learn(i, f,    n, p) {
    n = parts_of(item[i], p)
    if (p[1] == "use" && p[2] ~ /\.\{/ && n == 2) take_names(f, p[2])
    else if (p[1] == "use" && p[3] == "as" && n == 4) bring(f, p[4] ".", p[2])
    else if (p[1] == "pub" && p[3] == ":") { type[i] = joined(p, 4, n); name[i] = p[2]; own[f, p[2]] = 1 }
    else if (p[2] == ":") own[f, p[1]] = 1
    else if (p[1] != "unfolding" && !own[f, p[1]]) tell(f, "`" p[1] " " p[2] " ..` cannot be read")
}

# A module is kept with a dot behind its name, since a module and an item may share a name.
function bring(f, word, path) {
    if ((f, word) in brought) tell(f, "`" word "` stands for two things")
    brought[f, word] = path
    sub(/\..*/, "", path)
    root[f, path] = 1
}

function take_names(f, s,    module, n, k, names, w) {
    module = substr(s, 1, index(s, ".{") - 1)
    s = substr(s, index(s, ".{") + 2)
    sub(/\}$/, "", s)
    n = split(s, names, / *, */)
    for (k = 1; k <= n; k++) {
        split(names[k], w, " ")
        bring(f, w[2] == "as" ? w[3] : w[1], module "." w[1])
    }
}

# A name that the file takes from this module, and does not define itself.
function taken(f, word, module) { return brought[f, word] == module "." word && !own[f, word] }

# The function to which a path of the file leads, through what is made of its crate (its contracts, or its proofs), less its ending; "" if it leads to none.
function target(f, path, made, ending,    head, short) {
    if (substr(path, length(path) - length(ending) + 1) != ending) return ""
    path = substr(path, 1, length(path) - length(ending))
    head = path
    sub(/\..*/, "", head)
    if (own[f, head] || (f, head) in brought && brought[f, head] !~ /\.specs\.declared\./) return ""
    path = brought[f, head "."] substr(path, length(head) + 1)
    if (path !~ /^Rattle\.[a-z_0-9]+\./) return ""
    sub(/^Rattle\./, "", path)
    short = path
    sub(/\..*/, "", short)
    if (substr(path, length(short) + 1, length(made)) != made) return ""
    path = short "." substr(path, length(short) + length(made) + 1)
    if (match(path, /^[^.]+\.[^.]+/)) short = substr(path, 1, RLENGTH)
    return short in exported ? exported[short] substr(path, length(short) + 1) : path
}

# What a part takes: "shown", or the number of a parameter.
function part_taken(s) {
    if (s == "(λ κs x e. x.now)") return "shown"
    if (s !~ /^\(λ κs x e\. e(\.1)*\.0\.now\)$/) return ""
    return gsub(/\.1/, "", s) + 1
}

# The binders at the front of a type, (x y : ..) (z : ..) →, in `bound`, with their types. Gives the place behind the arrow; 0 where it cannot be read.
function binders(f, p,    n, k, m, q, first) {
    split("", bound)
    split("", bound_type)
    count = 0
    for (n = 1; p[n] ~ /^\(/; n++) {
        m = parts_of(substr(p[n], 2, length(p[n]) - 2), q)
        for (k = 1; k <= m && q[k] != ":"; k++) {
            if (q[k] in bound_type || (f, q[k]) in brought || (f, q[k] ".") in brought || (f, q[k]) in own || (f, q[k]) in root) return 0
            bound[++count] = q[k]
            bound_type[q[k]] = ""
        }
        for (first = k; first > 1; first--) bound_type[q[first - 1]] = joined(q, k + 1, m)
    }
    return count > 0 && p[n] == "→" ? n + 1 : 0
}

# What may be asked of every instance: what a bound says of a value gives one number.
function is_asked(f, s,    n, q, T, G) {
    if (s !~ /^\(.*\)$/ || parts_of(substr(s, 2, length(s) - 2), q) != 14) return 0
    T = substr(q[1], 6, length(q[1]) - 12)
    G = q[4]
    sub(/\.[a-z_]+$/, "", G)
    if (joined(q, 1, 14) != "(x : " T ".Denot) (m n : ℕ) → " q[4] " x m → " q[4] " x n → m ≡ n") return 0
    if (!(T in bound_type) || !(G in bound_type) || q[4] == G || bound_type[G] != "Ghosts " T ".Denot ℕ") return 0
    if ("x" in bound_type || "m" in bound_type || "n" in bound_type) return 0
    return taken(f, "ℕ", "Prim.Native.Nat") && taken(f, "◌≡◌", "mathlib.Core.Path") && brought[f, "Ghosts"] ~ ghosts && !own[f, "Ghosts"]
}

# Ghosts of impls, at types and at those of other impls.
function is_of_impls(f, s,    n, k, w, head) {
    gsub(/[()]/, " ", s)
    n = split(s, w, " ")
    for (k = 1; k <= n; k++) {
        head = w[k]
        if (taken(f, head, builtin)) continue
        if (!sub(/\.(ghosts|dict)$/, "", head) || brought[f, head "."] !~ impl || brought[f, head "."] ~ /^Rattle\.promises\./ || own[f, head]) return 0
    }
    return n > 0
}

# What a theorem of a generic function is of: "" for every instance, " u8 1" for one; "?" where that cannot be read. Its E has the n arguments e[2] .. e[n + 1].
function instance_of(f, path, p, last, n, e,    k, from, used, seen) {
    from = last > 0 ? binders(f, p) : 1
    if (!from) return "?"
    if (last == 0) count = 0
    for (k = 1; k <= count && bound[k] == e[k + 1]; k++) ;
    if (count > 0 && k > count && n == count) {
        for (k = from; k <= last; k += 2) if (!is_asked(f, p[k]) || p[k + 1] != "→") return "?"
        return ""
    }
    if (from != last + 1 || n < generics[path]) return "?"
    for (k = 1; k <= generics[path]; k++) if (e[k + 1] !~ /^[0-9]+$/ && !taken(f, e[k + 1], builtin)) return "?"
    split("", seen)
    for (; k <= n; k++) {
        if (e[k + 1] in bound_type) { if (!seen[e[k + 1]]++) used++ }
        else if (!is_of_impls(f, e[k + 1])) return "?"
    }
    return used == count ? " " joined(e, 2, generics[path] + 1) : "?"
}

function bare(s) { return s ~ /^\(.*\)$/ ? substr(s, 2, length(s) - 2) : s }

function judge(i, f,    n, p, s, path, E, fixed, key, e, d, m, at) {
    theorems++
    n = parts_of(type[i], p)
    for (s = 1; s < n && p[s] != "Fixes" && p[s] != "FixesPart"; s++) ;
    if (p[s] == "Fixes" && n == s + 3) { fixed = "answer"; E = p[s + 2] }
    else if (p[s] == "FixesPart" && n == s + 5) { fixed = part_taken(p[s + 3]); E = p[s + 4] }
    if (E == "" || !taken(f, p[s], unique)) return tell(f, name[i] ": `" type[i] "` is no theorem of uniqueness")
    if (fixed == "") return tell(f, name[i] ": `" p[s + 3] "` takes neither a lent parameter nor what the answer shows")
    parts_of(bare(p[s + 1]), d)
    path = target(f, d[1], contract, ".ended")
    if (path == "") return tell(f, name[i] ": `" d[1] "` is no function of a crate")
    m = parts_of(bare(E), e)
    if (target(f, e[1], proof, ".Reads.ensures") != path) return tell(f, name[i] ": `" E "` is not the ensures of that function")
    if (generics[path] > 0) at = instance_of(f, path, p, s - 1, m - 1, e)
    else if (s > 1 || m > 1 || d[1] != p[s + 1]) return tell(f, name[i] ": `" type[i] "` is not of that function alone")
    if (at == "?") return tell(f, name[i] ": `" type[i] "` is neither of every instance nor of a named one")
    key = path " " fixed at
    met[key]++
    by[key] = by[key] " " name[i]
    for (n = 1; n <= needs; n++) if (need[n] == key) return
    tell(f, name[i] ": is tied to what no public function has: " words(key))
}
