# For each public function of a Rattle source file, and each function of a trait that it gives for a type, the two lines that Determined.antt must
# have for it: where its clauses are read off, and the statement over its own Pre and Post, its result and every `&mut` that it is lent. `crate` and
# `module` (empty for lib.rt) say whose file it is. A file with a head that is not read is due two lines that no one has.
# A function over any type of a trait has the statement for each such type, and asks only that what the type borrows lives as long as the call. The
# lifetime of the type stands after those of the references that it is lent. Where a trait is given for arrays of any length, the theorem says only
# that two outcomes coincide.
{
    sub(/\/\/.*/, "")
    text = text " " $0
}

# The parameters, apart from each other by commas that stand in no bracket.
function parameters(list, parts, n, i, c, depth, word) {
    n = 0; depth = 0; word = ""
    for (i = 1; i <= length(list); i++) {
        c = substr(list, i, 1)
        if (c ~ /[[(<]/) depth++
        if (c ~ /[])>]/) depth--
        if (c == "," && depth == 0) { if (word ~ /[^ ]/) parts[++n] = word; word = ""; continue }
        word = word c
    }
    if (word ~ /[^ ]/) parts[++n] = word
    return n
}

# Where the lent value of parameter k (from 0 on) stands at the exit.
function lent(k, path) {
    path = "s"
    while (k-- > 0) path = path ".1"
    return path ".0.now"
}

# A name in small letters: `TableAt` is `table_at`.
function snake(name, small) {
    small = substr(name, 1, 1)
    for (name = substr(name, 2); name != ""; name = substr(name, 2))
        small = small (name ~ /^[A-Z]/ ? "_" : "") substr(name, 1, 1)
    return tolower(small)
}

# A type or a trait as the name of an `impl` has it: `&'a [u8]` is `RefSliceU8`, `From<Fault>` is `FromFault`.
function named(word) {
    gsub(/&('[a-z]+ *)?/, "Ref", word)
    if (word ~ /\[[^]]*;/) sub(/\[/, "Array", word); else sub(/\[/, "Slice", word)
    sub(/;.*/, "", word)
    gsub(/[^A-Za-z0-9]/, "", word)
    sub(/u8/, "U8", word)
    return word
}

# What the functions of an `impl` are named after: the type, or the type and the trait.
function owner_of(head, parts) {
    sub(/^impl(<[^>]*>)? /, "", head)
    sub(/ \{$/, "", head)
    if (split(head, parts, " for ") < 2) return head
    return named(parts[2]) named(parts[1])
}

END {
    gsub(/[ \t]+/, " ", text)
    owner = ""
    rest = text
    given = gsub(/(^|[ };])impl[ <]/, "&", text)
    public = gsub(/(^|[ };{])pub ([a-z]+ |extern "C" )*fn /, "&", text)
    while (match(rest, /impl(<[^>]*>)? [A-Za-z0-9_<>]+( for [^{]+)? \{|\} *$|(pub )?(extern "C" )?fn [A-Za-z0-9_]+(<[^>]*>)?\(/)) {
        found = substr(rest, RSTART, RLENGTH)
        before = substr(rest, 1, RSTART - 1)
        rest = substr(rest, RSTART + RLENGTH)
        inner += braces(before)
        if (found ~ /^impl/) {
            owner = owner_of(found)
            of_trait = found ~ / for /
            of_arrays = found ~ /<.*const /
            level = inner++
            given--
            continue
        }
        if (owner != "" && inner <= level) { owner = ""; of_trait = of_arrays = 0 }
        if (found !~ /fn / || (found !~ /^pub / && !of_trait)) continue
        if (found ~ /^pub /) public--
        name = found
        generic = found ~ /<[A-Z]/
        sub(/.*fn /, "", name); sub(/[<(].*/, "", name)
        depth = 1
        for (i = 1; i <= length(rest) && depth > 0; i++) {
            c = substr(rest, i, 1)
            if (c == "(") depth++
            if (c == ")") depth--
        }
        list = substr(rest, 1, i - 2)
        after = substr(rest, i)
        returned = "r"
        if (after ~ /^ *-> *&/) returned = "r.now"
        seen = returned
        split("", parts)
        n = parameters(list, parts)
        for (k = 1; k <= n; k++) if (parts[k] ~ /: *&('[a-z]+ *)?mut /) seen = "beside " (seen ~ / / ? "(" seen ")" : seen) " " lent(k - 1)
        path = (module == "" ? "" : module ".") (owner == "" ? "" : owner ".") name
        alias = crate "_" (module == "" ? "" : module "_") (owner == "" ? "" : snake(owner) "_") name
        gsub(/\./, "_", alias)
        printf "use Rattle.%s.proofs.%s.Reads as %s\n", crate, path, alias
        if (of_arrays) printf "%s_once : (N : _) (F : _) → Coincides (%s.Post N F) (λ κs r s. %s)\n", alias, alias, seen
        else if (!generic) printf "%s_once : Determined %s.Pre %s.Post (λ κs r s. %s)\n", alias, alias, alias, seen
        else {
            where = "κs"
            for (k = gsub(/&/, "\\&", list); k > 0; k--) where = where ".1"
            typed = " P L G w)"
            printf "%s_once : (P : RattleType) (L : Laws P) (G : Ghosts P.Denot) (w : Dict) → DeterminedWhere (λ κs. Lives P %s.0) (%s.Pre%s (%s.Post%s (λ κs r s. %s)\n", alias, where, alias, typed, alias, typed, seen
        }
    }
    if (given != 0) printf "%s\n%s: an impl whose head is not read\n", crate, crate
    if (public != 0) printf "%s\n%s: a public function whose head is not read\n", crate, crate
}

function braces(s, i, c, d) {
    d = 0
    for (i = 1; i <= length(s); i++) { c = substr(s, i, 1); if (c == "{") d++; if (c == "}") d-- }
    return d
}
