# The public functions of a crate and those of its trait impls, read from its source files (-v crate=NAME). One a line: "function", its path, the parameters that it is
# lent by `&mut` ("-" for none), "shown" where the answer is a reference, else "answer", and how many types and constants it is generic in. Paths are those that rt prints,
# with dots for `::`: crate, module, type, name; the module is that of the type, wherever its `impl` stands, and of a trait impl that of the impl, whose name is made of
# the type, the trait and what the trait is taken at. A line "instance" gives a generic method and the arguments at which a public `type` names its type; a line
# "export" the short path of a `pub use` and the one that it stands for. What cannot be read is said; exit status 1.
{
    line = $0
    gsub(/'(\\'|\\[^']+|[^\\'])'/, " LITERAL ", line)
    gsub(/"(\\.|[^"\\])*"/, " LITERAL ", line)
    sub(/\/\/.*/, "", line)
    if (line ~ /"|\/\*/) tell(line)
    text[FILENAME] = text[FILENAME] " " line
}

END {
    for (file in text) read_file(file, 0)
    for (file in text) read_file(file, 1)
    for (k = 1; k <= methods; k++)
        for (name in alias) if (alias[name] == method_of[k]) print "instance", method[k], alias_at[name]
    exit unread
}

function tell(what) {
    print "promised: crate " crate ": cannot read `" what "`" > "/dev/stderr"
    unread = 1
}

# First the types alone (telling 0), since an `impl` may stand in another file than its type. What stands in braces is a "module", "own" (a plain impl), "trait" (an impl of
# one), or "" for all else. An impl or a module leaves what its braces hold in `coming`.
function read_file(file, telling,    n, i, depth, w) {
    n = words_of(text[file])
    depth = 0
    where[0] = crate module_of(file)
    kind[0] = "module"
    coming = ""
    for (i = 1; i <= n; i++) {
        w = word[i]
        if (w == "{") { depth++; kind[depth] = coming; where[depth] = coming == "" ? where[depth - 1] : coming_at; coming = "" }
        else if (w == "}") depth--
        else if (w ~ /^#!?$/) i = attribute(i, telling)
        else if (w ~ /^(struct|enum|union)$/ && kind[depth] == "module") know_type(word[i + 1], where[depth], telling)
        else if (w == "type" && word[i - 1] == "pub" && kind[depth] == "module") know_alias(i + 1, telling)
        else if (w == "mod" && word[i + 2] == "{" && kind[depth] == "module") { coming = "module"; coming_at = where[depth] "." word[i + 1] }
        else if (w == "impl") i = read_impl(i, where[depth], kind[depth], telling)
        else if (telling && w == "pub") read_public(i + 1, where[depth], kind[depth])
        else if (telling && w == "fn" && kind[depth] == "trait") read_function(i + 1, where[depth], kind[depth])
        else if (telling && (w == "trait" || w ~ /!$/ && kind[depth] == "module" || w == "mod" && word[i + 2] == "{")) tell(w " " word[i + 1])
        if (depth < 0) break
    }
    if (telling && depth != 0) tell("the braces of " file)
}

function module_of(file) {
    sub(/^.*\/src\//, "/", file)
    sub(/\.rt$/, "", file)
    sub(/\/(lib|mod)$/, "", file)
    gsub(/\//, ".", file)
    return file
}

function words_of(s) {
    gsub(/->/, " ANSWERS ", s)
    gsub(/::/, " :: ", s)
    gsub(/[][{}()<>,;&=]/, " & ", s)
    return split(s, word, " ")
}

# The word behind the bracket that closes the one at i.
function behind(i,    depth) {
    do {
        if (word[i] ~ /^[[({<]$/) depth++
        else if (word[i] ~ /^[])}>]$/) depth--
        i++
    } while (depth > 0 && i in word)
    return i
}

# Those that add no function but by a derive, and move none.
function attribute(i, telling) {
    if (telling && (word[i + 1] != "[" || word[i + 2] !~ /^(derive|tactic|repr|inline)$/)) tell(word[i] word[i + 1] word[i + 2])
    return behind(i + 1) - 1
}

function know_type(name, at, telling) {
    if (!telling) home[name] = known[name]++ ? "" : at
}

# pub type NAME = TYPE<ARGUMENTS>;
function know_alias(i, telling,    k, args) {
    if (telling || word[i + 1] != "=" || word[i + 3] == ";") return
    if (word[i + 3] != "<") return tell("pub type " word[i] " = " word[i + 2] " " word[i + 3])
    for (k = i + 4; word[k] != ">"; k++) if (word[k] != ",") args = args " " word[k]
    alias[word[i]] = word[i + 2]
    alias_at[word[i]] = substr(args, 2)
}

# The types and constants of `<..>` at i, each behind a space, in `params`; lifetimes are none. Gives the word behind it.
function generics(i,    depth, starts) {
    params = ""
    if (word[i] != "<") return i
    do {
        if (word[i] ~ /^[[({<]$/) { depth++; starts = depth == 1 }
        else if (word[i] ~ /^[])}>]$/) depth--
        else if (word[i] == "," && depth == 1) starts = 1
        else if (starts && word[i] != "const") { if (word[i] !~ /^'/) params = params " " word[i]; starts = 0 }
        i++
    } while (depth > 0 && i in word)
    gsub(/:/, "", params)
    return i
}

# A type or a trait at i: its name in `named`, its arguments, less lifetimes, in `args`, each behind a space; one that is generic in all that the impl is counts as its name.
# Gives the word behind it, or 0 where it cannot be read.
function read_name(i, all,    name, k, list, lifetimes) {
    if (word[i] !~ /^[A-Za-z_][A-Za-z_0-9]*$/ || word[i] ~ /^(dyn|mut|fn)$/) return 0
    name = word[i]
    k = i + 1
    if (word[k] == "<") {
        do {
            if (word[++k] ~ /^'/) k++
            else if (!(k = read_name(k, all)) || args != "") return 0
            else list = list " " named
        } while (word[k] == ",")
        if (word[k++] != ">") return 0
    }
    named = name
    args = list == all ? "" : list
    return k
}

# impl<..> TYPE<..> { or impl<..> TRAIT<..> for TYPE<..> {. Gives the word before its brace.
function read_impl(i, at, about, telling,    k, all, trait, taken_at, bound) {
    k = generics(i + 1)
    all = params
    trait = ""
    if (k = read_name(k, all)) {
        if (word[k] == "for") {
            trait = named
            taken_at = args
            k = read_name(k + 1, all)
        }
    }
    if (k && word[k] == "where") while (k in word && word[k] != "{") k++
    bound = trait != "" && own_parameter(taken_at, all)
    if (!k || word[k] != "{" || args != "" || bound || about != "module" || trait == "" && telling && home[named] == "") {
        if (telling) tell("impl " word[i + 1] " " word[i + 2] " " word[i + 3])
        return i
    }
    coming = trait == "" ? "own" : "trait"
    coming_at = trait == "" ? home[named] "." named : at "." capital(named) trait capitals(taken_at)
    impl_all = all
    impl_type = named
    return k - 1
}

# One of the words of a list is a parameter of the impl.
function own_parameter(list, all,    n, w) {
    n = split(list, w, " ")
    for (; n > 0; n--) if (index(all " ", " " w[n] " ")) return 1
    return 0
}

function capital(s) { return toupper(substr(s, 1, 1)) substr(s, 2) }

function capitals(list,    n, k, w, s) {
    n = split(list, w, " ")
    for (k = 1; k <= n; k++) s = s capital(w[k])
    return s
}

function read_public(i, at, about,    first) {
    if (word[i] == "(" && word[i + 1] ~ /^(crate|super|self|in)$/) return
    if (word[i] ~ /^(struct|enum|union|static|mod|type)$/ || word[i] ~ /.:$/ || word[i - 2] ~ /^[(,]$/) return
    if (word[i] == "use") return read_use(i, at)
    first = i
    while (word[i] ~ /^(const|unsafe|extern|async|LITERAL)$/) i++
    if (word[i] == "fn" && about ~ /^(module|own)$/) read_function(i + 1, at, about)
    else if (word[i - 1] != "const" || word[i] !~ /.:$/) tell("pub " word[first] " " word[first + 1] " " word[first + 2])
}

function read_use(i, at) {
    if (word[i + 2] == "::" && word[i + 4] == ";") export(at, word[i + 1], word[i + 3])
    else if (word[i + 2] == "::" && word[i + 3] == "{") read_group(i, at)
    else tell("pub use " word[i + 1] " " word[i + 2] " " word[i + 3] " " word[i + 4])
}

function export(at, module, name) { print "export", at "." name, at "." module "." name }

# pub use module::{name, name};
function read_group(i, at,    k) {
    for (k = i + 4; word[k] != "}"; k += word[k + 1] == "," ? 2 : 1) {
        if (word[k + 1] !~ /^[,}]$/) return tell("pub use " word[i + 1] " :: { .. " word[k] " " word[k + 1])
        export(at, word[i + 1], word[k])
    }
}

function read_function(i, at, about,    k, all, n, w) {
    k = generics(i + 1)
    if (word[k] != "(") return tell("fn " word[i] " " word[k])
    all = (about == "module" ? "" : impl_all) params
    n = split(all, w, " ")
    if (about == "own" && impl_all != "" && params == "") { method[++methods] = at "." word[i]; method_of[methods] = impl_type }
    print "function", at "." word[i], signature(k, word[i]), n
}

function signature(i, name,    depth, place, lent) {
    place = 1
    do {
        if (word[i] ~ /^[[({<]$/) depth++
        else if (word[i] ~ /^[])}>]$/) depth--
        else if (word[i] == "," && depth == 1) place++
        else if (word[i] == "impl") tell("fn " name " .. impl " word[i + 1])
        else if (word[i] == "&" && (word[i + 1] == "mut" || word[i + 1] ~ /^'/ && word[i + 2] == "mut")) {
            if (depth > 1 || lent ~ ("," place "$")) tell("fn " name " .. " word[i - 1] " & " word[i + 1])
            lent = lent "," place
        }
        i++
    } while (depth > 0 && i in word)
    return (lent == "" ? "-" : substr(lent, 2)) " " (word[i] == "ANSWERS" && word[i + 1] == "&" ? "shown" : "answer")
}
