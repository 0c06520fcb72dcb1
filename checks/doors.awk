# Lists what functions call, load and store, from a program's MIR as the kit's front end lowers it; for checks/doors.
#
#     awk -v crates=".." -v below=".." -v callers=".." -v derives=".." -f doors.awk PARAMETERS TOKENS [TOKENS]
#
# PARAMETERS has a function and the names of its parameters a line, or `struct`, a struct and the names of its fields;
# TOKENS has the MIR, cut at its blanks. Of two files the functions of the last are listed, by what both say. What is
# listed: the functions of `crates` and `below`, and of those of `callers` their calls of `crates`; not those that a
# type derives by `derives`, where it holds no reference, nor what hands a call on to a closure.
#
# A line of the first part is a piece of memory, lent to a function of `crates` that no listed one calls, or an array or
# a struct of one of them, with every function that writes or reads it, through whatever calls and under whatever names:
#     memory FUNCTION NAME: written by .., read by ..
# A line of the second part is a function and one thing that it does:
#     CALLEE(ARGUMENTS)               a call
#     reads MEMORY[INDEX]             a load through a reference, or of a field of a struct of the function's
#     writes MEMORY[INDEX] = VALUE    a store
#     numbers: CALLEE, ..             the calls that are given no memory, in one line
# Memory has the name of the parameter that lends it, with the field of a struct, `own TYPE` if it is an array or a
# struct of the function's, with what the struct's references lead to in braces, `constant TYPE` if it is one that is
# never written, or the name of the call that gave it; `[..]` after it is a part, `|` is "or". A number is shown if it
# is a constant or a parameter, and is `_` otherwise. `loop` is before what stands in a loop, `x2` after what stands
# there twice.
#
# A place of memory is a text: a local, and steps to it, `.1` to a field and `*` to what a reference leads to. Behind a
# parameter each reference leads to a place of its own, `1*.0.0*` say; the fields of an enum are one place, and so are
# the elements of an array. Of each reference that a function has, is given by a call, or puts into what it is lent, the
# places are kept that it may lead to; where that is not known, all are taken that the call reaches.

# ---------------------------------------------------------------- terms: a node has a head and children

FNR == 1 { part++ }
part == 1 && $1 == "struct" {
    name = $2
    sub(/^struct [^ ]+ ?/, "")
    fields[name] = $0
    next
}
part == 1 {
    name = $1
    sub(/^[^ ]+ ?/, "")
    parameters[name] = $0
    next
}
{
    word = $0
    while (sub(/^\(/, "", word)) stack[++depth] = 0
    closing = 0
    while (sub(/\)$/, "", word)) closing++
    if (word != "") {
        head[++nodes] = word
        if (depth && !stack[depth]) {
            stack[depth] = nodes
            if (depth > 1) adopt(stack[depth - 1], nodes)
        } else if (depth) adopt(stack[depth], nodes)
    }
    for (; closing > 0; closing--) {
        if (head[stack[depth]] == "fn-def") define(stack[depth])
        depth--
    }
}
function adopt(parent, child) { kids[parent, ++count[parent]] = child }
function kid(node, k) { return kids[node, k] }
function item_of(list) { return kid(list, 1) }
function rest_of(list) { return kid(list, 2) }
function bare(text) {
    gsub(/"/, "", text)
    return text
}
function define(node,    called_so) {
    called_so = bare(head[kid(node, 1)])
    if (!(called_so in definition)) function_name[++functions] = called_so
    definition[called_so] = node
    part_of[called_so] = part
}
function join(one, other,    words, k, n) {
    n = split(other, words, "|")
    for (k = 1; k <= n; k++)
        if (index("|" one "|", "|" words[k] "|") == 0) one = one (one == "" ? "" : "|") words[k]
    return one
}

# ---------------------------------------------------------------- types: a node, and what its parameters are

# A type is "NODE:GIVEN"; that which is not known is "".

function is_reference(type) { return head[type + 0] == "tyRef" || head[type + 0] == "tyMut" }
# a reference to a slice, as address and length?
function is_wide(type) { return head[type + 0] == "tyStruct" }
function type_name(type) { return head[type + 0] == "tyNamed" ? bare(head[kid(kid(type + 0, 1), 1)]) : "" }
function given_of(type) { return substr(type, index(type, ":") + 1) }
function resolved(type,    k) {
    while (head[type + 0] == "tyParam") {
        k = head[kid(kid(type + 0, 1), 1)]
        if (!((given_of(type), k) in given)) return ""
        type = given[given_of(type), k]
    }
    return type
}
# the parameters of a declared type
function givens_of(type,    k) {
    if (!(type in givens)) {
        givens[type] = ++given_sets
        for (k = 2; k <= count[type + 0]; k++)
            given[givens[type], k - 2] = resolved(kid(type + 0, k) ":" given_of(type))
    }
    return givens[type]
}
function is_struct(type) {
    return head[type + 0] == "tyStruct" || head[type + 0] == "tyTuple" || \
        (type_name(type) in shape && head[shape[type_name(type)]] == "fields")
}
# field k, from 0, of a struct; "" if it is none, or its type is not known
function field_type(type, k,    node) {
    if (!is_struct(type)) return ""
    if (head[type + 0] != "tyNamed") return k < count[type + 0] ? resolved(kid(type + 0, k + 1) ":" given_of(type)) : ""
    node = shape[type_name(type)]
    return k < count[node] ? resolved(kid(node, k + 1) ":" givens_of(type)) : ""
}
function field_count(type) { return head[type + 0] == "tyNamed" ? count[shape[type_name(type)]] : count[type + 0] }
function field_name(type, k,    words) {
    split(fields[type_name(type)], words, " ")
    return (k + 1) in words ? words[k + 1] : k
}
function pointee(type) { return is_reference(type) ? resolved(kid(type + 0, 1) ":" given_of(type)) : "" }
# is there a reference in it, or, if `kind` is "tyMut", one that may be written through?
function holds(type, kind,    node, k, it, out) {
    type = resolved(type)
    if (type == "") return 1
    if ((type, kind) in holding) return holding[type, kind]
    holding[type, kind] = 0
    node = type + 0
    if (head[node] == "tyInt" || head[node] == "tyBool" || head[node] == "tyUnit") out = 0
    else if (head[node] == "tyRef") out = kind == ""
    else if (head[node] == "tyMut" || head[node] == "tyPtr") out = 1
    else if (head[node] == "tyArray") out = holds(kid(node, 1) ":" given_of(type), kind)
    else if (head[node] == "tyNamed") {
        it = shape[type_name(type)]
        if (!it) out = 1
        for (k = 1; k <= count[it]; k++) if (holds(kid(it, k) ":" givens_of(type), kind)) out = 1
    } else {
        if (!count[node]) out = 1
        for (k = 1; k <= count[node]; k++) if (holds(kid(node, k) ":" given_of(type), kind)) out = 1
    }
    return holding[type, kind] = out
}
# the ways to the references in a value, each behind a "/"
function ways(type,    k, n, words, j, m, out) {
    if (type == "") return "/"
    if (type in ways_in) return ways_in[type]
    if (!is_struct(type)) out = holds(type, "") ? "/" : ""
    else {
        ways_in[type] = ""
        n = field_count(type)
        for (k = 0; k < n; k++) {
            m = split(ways(field_type(type, k)), words, "|")
            for (j = 1; j <= m; j++) out = join(out, "/." k substr(words[j], 2))
        }
    }
    return ways_in[type] = out
}
function type_text(node) {
    if (head[node] == "tyInt") return "u" head[kid(node, 1)]
    if (head[node] == "tyArray") return "[" type_text(kid(node, 1)) "; " head[kid(kid(node, 2), 1)] "]"
    if (head[node] == "tyNamed") return bare(head[kid(kid(node, 1), 1)])
    return head[node]
}

# ---------------------------------------------------------------- places and operands of the function at hand

function base_of(place) { return head[kid(place, 1)] + 0 }
function is_parameter(base) { return base >= 1 && base <= arity }
# does a place lie behind a reference?
function is_behind(place,    list) {
    for (list = kid(place, 2); head[list] == "lcons"; list = rest_of(list)) if (head[item_of(list)] == "deref") return 1
    return 0
}
# does it lie there, or is it a field of a struct of the function's that lies in memory?
function is_in_memory(place) {
    return is_behind(place) || (base_of(place) in twin && head[kid(place, 2)] == "lcons")
}
function root_of(place) {
    match(place, /^[a-z]?[0-9]+/)
    return substr(place, 1, RLENGTH)
}
function type_of_root(root) {
    if (root ~ /^x/) return ""
    if (root ~ /^c/) return kid(statement[substr(root, 2)], 2) ":0"
    return resolved(type[root] ":0")
}
# a place without the steps that are not told apart; its type is in type_at
function normal(place,    out, left, at, step, it) {
    if (place in normals) return normals[place]
    out = root_of(place)
    left = substr(place, length(out) + 1)
    at = type_of_root(out)
    while (left != "") {
        if (substr(left, 1, 4) == "[..]") {
            if (out !~ /\[\.\.\]$/) out = out "[..]"
            left = substr(left, 5)
        } else if (substr(left, 1, 1) == "*") {
            left = substr(left, 2)
            if (at != "" || out !~ /\*(\[\.\.\])?$/) out = out "*"
            at = pointee(at)
        } else {
            match(left, /^\.[0-9]+/)
            step = substr(left, 1, RLENGTH)
            left = substr(left, RLENGTH + 1)
            it = field_type(at, substr(step, 2) + 0)
            if (it != "") { out = out step; at = it }
        }
    }
    type_at[out] = at
    return normals[place] = out
}
# the type of a place, or of the first of some
function type_of(place) {
    sub(/\|.*/, "", place)
    return type_at[normal(place)]
}
# without the marks of parts
function whole(place) {
    gsub(/\[\.\.\]/, "", place)
    return place
}
function whole_of(places,    words, k, n, out) {
    n = split(places, words, "|")
    for (k = 1; k <= n; k++) out = join(out, whole(words[k]))
    return out
}
function parts_of(places,    words, k, n, out) {
    n = split(places, words, "|")
    for (k = 1; k <= n; k++) out = join(out, words[k] ~ /\[\.\.\]$/ ? words[k] : words[k] "[..]")
    return out
}
# each of some places, after a step
function each(places, step,    words, k, n, out) {
    n = split(places, words, "|")
    for (k = 1; k <= n; k++) out = join(out, normal(words[k] step))
    return out
}
# does a place hold what the caller put there?
function is_given(place) { return place ~ /[*x]/ || (place ~ /^[0-9]/ && is_parameter(root_of(place) + 0)) }
# the places that the reference at a place may lead to
function target(place,    out) {
    place = whole(normal(place))
    if (!holds(type_at[place], "")) return ""
    out = leads[place]
    return is_given(place) ? join(normal(place "*"), out) : out
}
function targets(places,    words, k, n, out) {
    n = split(places, words, "|")
    for (k = 1; k <= n; k++) out = join(out, target(words[k]))
    return out
}
# the places that a place of the MIR may be
function places_of(place,    list, out) {
    out = normal(base_of(place))
    for (list = kid(place, 2); head[list] == "lcons"; list = rest_of(list)) {
        if (head[item_of(list)] == "deref") out = targets(out)
        else if (head[item_of(list)] == "field") out = each(out, "." head[kid(item_of(list), 1)])
    }
    return out
}
# the ways to the references that are at some places
function ways_at(places,    words, k, n, out) {
    n = split(places, words, "|")
    for (k = 1; k <= n; k++) out = join(out, ways(type_of(words[k])))
    return out
}
function is_before(way, other) { return way == "/" || index(other ".", way ".") == 1 }
# what the references at some places lead to, if they are on this way, before it or behind it
function held_by(places, way,    words, others, j, k, m, n, out) {
    n = split(places, words, "|")
    for (k = 1; k <= n; k++) {
        m = split(ways(type_of(words[k])), others, "|")
        for (j = 1; j <= m; j++)
            if (is_before(others[j], way) || is_before(way, others[j]))
                out = join(out, target(words[k] substr(others[j], 2)))
    }
    return out
}
function sources_of(operand) { return head[operand] == "copy" ? places_of(kid(operand, 1)) : "" }

# a number: a constant, a parameter, or one of these times the size of an element
function number_text(operand,    base) {
    if (head[operand] == "int") return head[kid(operand, 2)]
    if (head[operand] != "copy") return count[operand] ? "_" : head[operand]
    base = base_of(kid(operand, 1))
    if (head[kid(kid(operand, 1), 2)] != "lnil") return "_"
    if (is_parameter(base)) return parameter[base]
    return base in number ? number[base] : "_"
}
# keeps in `table` what is known of a local: one text, or `_`
function learn(table, base, text) {
    if (base in table) {
        if (table[base] != text) table[base] = "_"
    } else table[base] = text
}
function own_text(base) {
    if (is_parameter(base)) return parameter[base]
    return "own " type_text(type[base]) (twin[base] > 1 ? " " twin[base] : "")
}
function constant_text(k,    text) {
    text = "constant " type_text(kid(statement[k], 2))
    return text (twin["c", k] > 1 ? " " twin["c", k] : "")
}
function text_of(place,    root, left, at, step, out) {
    root = root_of(place)
    left = substr(place, length(root) + 1)
    at = type_of_root(root)
    out = root ~ /^x/ ? given_by[root] : root ~ /^c/ ? constant_text(substr(root, 2)) : own_text(root + 0)
    while (left != "") {
        if (substr(left, 1, 4) == "[..]") {
            out = out "[..]"
            left = substr(left, 5)
        } else if (substr(left, 1, 1) == "*") {
            at = pointee(at)
            left = substr(left, 2)
        } else {
            match(left, /^\.[0-9]+/)
            step = substr(left, 2, RLENGTH - 1) + 0
            left = substr(left, RLENGTH + 1)
            if (!is_wide(at)) out = out "." field_name(at, step)
            at = field_type(at, step)
        }
    }
    return out
}
# places, and in braces what the references in a struct of the function's lead to
function texts_of(places, level,    words, k, n, out) {
    n = split(places, words, "|")
    for (k = 1; k <= n; k++)
        out = join(out, text_of(words[k]) (is_given(words[k]) ? "" : held_text(words[k], level + 1)))
    return out
}
function held_text(place, level,    words, k, n, it, out) {
    if (level > 5) return ""
    n = split(ways(type_of(place)), words, "|")
    for (k = 1; k <= n; k++) {
        it = texts_of(target(place substr(words[k], 2)), level)
        gsub(/\|/, " or ", it)
        out = out (k > 1 ? ", " : "") it
    }
    return n ? "{" out "}" : ""
}
# the memory that an operand leads to
function memory_text(operand,    places) {
    places = sources_of(operand)
    if (held_by(places, "/") == "") return ""
    if (ways_at(places) !~ /\|/) return texts_of(held_by(places, "/"), 0)
    if (is_wide(type_of(places))) return texts_of(held_by(places, "/"), 0)
    return held_text(places, 0)
}

# is a local set by this statement?
function is_set_by(node, base,    place) {
    place = head[node] == "assign" ? kid(node, 1) : head[node] == "call" ? kid(node, 3) : 0
    return place && base_of(place) == base && !is_behind(place)
}
# is this the length of all that is lent?
function is_whole(operand, places, at,    place, k, base, last) {
    if (head[operand] == "int") return index(texts_of(places, 9), "; " head[kid(operand, 2)] "]") > 0
    if (head[operand] != "copy") return 0
    place = kid(operand, 1)
    if (head[kid(place, 2)] == "lnil") {
        base = base_of(place)
        for (k = at - 1; k > 0 && !is_set_by(statement[k], base); k--) continue
        if (k == 0 || head[statement[k]] != "assign" || head[kid(statement[k], 2)] != "rvOpd") return 0
        operand = kid(kid(statement[k], 2), 1)
        if (head[operand] != "copy") return 0
        place = kid(operand, 1)
    }
    last = places_of(place)
    if (last !~ /\.1$/) return 0
    last = substr(last, 1, length(last) - 2)
    return is_wide(type_of(last)) && whole_of(target(last ".0")) == whole_of(places)
}

# ---------------------------------------------------------------- where references lead

# each reference at these places may lead to those
function put(places, to,    words, k, n, place, was, others, j, m) {
    n = split(places, words, "|")
    for (k = 1; k <= n; k++) {
        place = whole(normal(words[k]))
        if (!holds(type_at[place], "")) continue
        was = leads[place]
        m = split(to, others, "|")
        for (j = 1; j <= m; j++)
            if (!is_given(place) || others[j] != normal(place "*")) leads[place] = join(leads[place], others[j])
        if (leads[place] != was) changed = 1
    }
}
# a copy of what is at `from`
function copy(places, step, from,    words, k, n) {
    n = split(join(ways_at(from), ways_at(each(places, step))), words, "|")
    for (k = 1; k <= n; k++) put(each(places, step substr(words[k], 2)), held_by(from, words[k]))
}
function assign(node, at,    places, value, list, k, to) {
    places = places_of(kid(node, 1))
    value = kid(node, 2)
    if (head[node] == "lendStatic") put(places, "c" at)
    else if (head[value] == "addrOf") put(places, places_of(kid(value, 1)))
    else if (head[value] == "rvOpd") copy(places, "", sources_of(kid(value, 1)))
    else if (head[value] == "aggregate") {
        list = kid(value, 1)
        if (is_wide(type_of(places)) && head[list] == "lcons" && head[rest_of(list)] == "lcons") {
            to = held_by(sources_of(item_of(list)), "/")
            put(each(places, ".0"), is_whole(item_of(rest_of(list)), to, at) ? to : parts_of(to))
            return
        }
        for (k = 0; head[list] == "lcons"; list = rest_of(list)) copy(places, "." k++, sources_of(item_of(list)))
    } else
        for (k = 1; k <= count[value]; k++) put(places, held_by(sources_of(kid(value, k)), "/"))
}

# A call: the callee's places, as far as they are reached from its arguments, are places of the caller.
function bind(callee, type, place, places, level,    words, k, n, to) {
    if (places == "") return
    bound[place] = join(bound[place], places)
    keep_edges(places, "lends", callee "\t" place)
    if (type == "") {   # nothing is told apart there: all that is reached from here
        split("", reached)
        reach(places, 2)
        for (to in reached) {
            bound[place] = join(bound[place], to)
            keep_edges(to, "lends", callee "\t" place)
        }
        return
    }
    n = split(ways(type), words, "|")
    for (k = 1; k <= n; k++) {
        to = contents(places, words[k])
        if (to != "" && level > 9) too_deep()
        if (to != "") bind(callee, pointee(type_on(type, words[k])), place substr(words[k], 2) "*", to, level + 1)
    }
}
function too_deep() {
    print "doors: references behind references, ten and more, in " name > "/dev/stderr"
    exit 2
}
function contents(places, way,    words, k, n, out) {
    n = split(places, words, "|")
    for (k = 1; k <= n; k++) out = join(out, held_by(words[k], way))
    return out
}
function type_on(type, way,    left) {
    left = substr(way, 2)
    while (match(left, /^\.[0-9]+/)) {
        type = field_type(type, substr(left, 2, RLENGTH - 1) + 0)
        left = substr(left, RLENGTH + 1)
    }
    return type
}
# all places that are reached from these, by `how`: 1 if nothing is written through the reference, 2 otherwise
function reach(places, how,    words, ways_on, k, j, m, n, it) {
    n = split(places, words, "|")
    for (k = 1; k <= n; k++) {
        it = whole(normal(words[k]))
        if (it in reached && reached[it] >= how) continue
        reached[it] = how
        if (gsub(/\*/, "*", it) > 9) too_deep()
        m = split(ways(type_of(it)), ways_on, "|")
        for (j = 1; j <= m; j++)
            reach(target(it substr(ways_on[j], 2)), holds(type_of(it substr(ways_on[j], 2)), "tyMut") ? 2 : 1)
    }
}
# the caller's places for a place of the callee
function mapped(callee, place,    front, behind, it) {
    front = whole(place)
    while (!(front in bound)) {
        if (front ~ /\*$/ || !match(front, /\.[0-9]+$/)) {
            if (front ~ /^[0-9]+/ && root_of(front) + 0 <= head[kid(kid(definition[callee], 2), 3)] + 0 && \
                root_of(front) + 0 > 0) return ""
            if (!(callee in root_for)) {
                root_for[callee] = "x" ++roots
                given_by[root_for[callee]] = callee "()"
            }
            return root_for[callee]
        }
        behind = substr(front, RSTART) behind
        front = substr(front, 1, RSTART - 1)
    }
    it = each(bound[front], behind)
    return place ~ /\[\.\.\]$/ ? parts_of(it) : it
}
function call(node,    name_of, list, k, n, type_it, words, j, m, result) {
    name_of = callee_of(node)
    result = places_of(kid(node, 3))
    split("", bound)
    if (!(name_of in definition)) {
        library(node, name_of, result)
        return
    }
    for (list = kid(node, 2); head[list] == "lcons"; list = rest_of(list)) {
        k++
        type_it = type_of_local(name_of, k)
        n = split(ways(type_it), words, "|")
        for (j = 1; j <= n; j++)
            bind(name_of, pointee(type_on(type_it, words[j])), k substr(words[j], 2) "*",
                held_by(sources_of(item_of(list)), words[j]), 1)
    }
    give(name_of, result)
}
function type_of_local(callee, k,    list) {
    list = kid(kid(definition[callee], 2), 4)
    while (k-- > 0) list = rest_of(list)
    return resolved(kid(item_of(list), 1) ":0")
}
# what a call gives, and the references that it puts into what it is lent
function give(callee, result,    words, pair, k, n, to) {
    n = split(summary[callee], words, "\n")
    for (k = 1; k <= n; k++) {
        split(words[k], pair, "=")
        to = mapped(callee, pair[2])
        if (pair[1] ~ /^0/) put(each(result, substr(pair[1], 2)), to)
        else put(mapped(callee, pair[1]), to)
    }
}
# A call of the kit, or of a function that is not at hand: it reads all that it is lent, and writes all that it is lent
# to be written. A closure that it is given is called with all of that.
function library(node, called_so, result,    list, k, n, words, places, items, others, closures, it) {
    split("", reached); split("", first)
    for (list = kid(node, 2); head[list] == "lcons"; list = rest_of(list)) {
        places = sources_of(item_of(list))
        k++
        if (closure_of(places) != "") {
            closures = closures "\n" places
            continue
        }
        n = split(ways_at(places), words, "|")
        for (; n > 0; n--)
            reach(held_by(places, words[n]), holds(type_of(each(places, substr(words[n], 2))), "tyMut") ? 2 : 1)
        if (k == 1) for (it in reached) first[it] = 1
    }
    for (it in reached) {
        items = join(items, it)
        if (called_so !~ /^slice::(fill|copy_from_slice)$/ || !(it in first)) keep_edges(it, "reads", name)
        if (reached[it] == 2) keep_edges(it, "writes", name)
    }
    # references may be put where such references are
    for (it in reached) if (reached[it] == 2) {
        n = split(ways(type_of(it)), words, "|")
        for (; n > 0; n--) {
            places = normal(it substr(words[n], 2))
            put(places, alike(items, pointee(type_of(places))))
        }
    }
    n = split(closures, others, "\n")
    for (k = 2; k <= n; k++) lend_to_closure(closure_of(others[k]), others[k], in_no_kit(items))
    for (k = 2; k <= n; k++) items = join(items, held_by(others[k], "/"))
    n = split(ways_at(result), words, "|")
    for (; n > 0; n--) put(each(result, substr(words[n], 2)), items)
}
# the function of the closure that is at some places; "" if there is none
function closure_of(places,    it) {
    it = type_name(type_of(places))
    return sub(/\+Self$/, "", it) && it in definition ? it : ""
}
# a closure is called with what it holds, which is at some places, and with these
function lend_to_closure(closure, places, items,    type_it, inner, k, n, words) {
    split("", bound)
    called[closure] = called[closure] " " crate_of(name)
    type_it = type_of_local(closure, 1)
    inner = is_reference(type_it) ? pointee(type_it) : type_it
    n = split(ways(inner), words, "|")
    for (; n > 0; n--)
        bind(closure, pointee(type_on(inner, words[n])), (inner == type_it ? "1" : "1*") substr(words[n], 2) "*",
            held_by(places, words[n]), 1)
    for (k = 2; k <= head[kid(kid(definition[closure], 2), 3)] + 0; k++) {
        type_it = type_of_local(closure, k)
        n = split(ways(type_it), words, "|")
        for (; n > 0; n--)
            bind(closure, pointee(type_on(type_it, words[n])), k substr(words[n], 2) "*", items, 1)
    }
    give(closure, "")
}
# those that may be of this type, or have elements of it
function alike(places, type,    words, k, n, out, it) {
    n = split(places, words, "|")
    for (k = 1; k <= n; k++) {
        it = type_of(words[k])
        if (head[it + 0] == "tyArray") it = resolved(kid(it + 0, 1) ":" given_of(it))
        if (it == "" || type == "" || type_text(it + 0) == type_text(type + 0)) out = join(out, words[k])
    }
    return out
}
# those that are no struct of the kit's
function in_no_kit(places,    words, k, n, out) {
    n = split(places, words, "|")
    for (k = 1; k <= n; k++) if (type_name(type_of(words[k])) !~ /^(core|std[a-z_]*)::/) out = join(out, words[k])
    return out
}

# ---------------------------------------------------------------- the function at hand

# keeps the statements and the conditions of a body, in order
function flatten(node, looping,    k) {
    if (head[node] == "assign" || head[node] == "call" || head[node] == "lendStatic") keep(node, looping)
    else if (head[node] == "if" || head[node] == "switch") {
        keep(kid(node, 1), looping)
        for (k = 2; k <= count[node]; k++) flatten(kid(node, k), looping)
    } else
        for (k = 1; k <= count[node]; k++) flatten(kid(node, k), looping || head[node] == "loop")
}
function keep(node, looping) {
    statement[++statements] = node
    in_loop[statements] = looping
}
function callee_of(node) { return bare(head[kid(kid(kid(node, 1), 1), 1)]) }
function tell(text, looping) {
    text = (looping ? "loop " : "") text
    if (!times[text]++) told[++tellings] = text
}
# is it a reference that is loaded, its address or its length? That is no access to what it leads to.
function is_of_reference(places,    words, k, it) {
    for (k = split(places, words, "|"); k > 0; k--) {
        it = type_of(words[k])
        if (is_reference(it) || is_wide(it) || head[it + 0] == "tyPtr") continue
        if (!sub(/\.[01]$/, "", words[k]) || !is_wide(type_of(words[k]))) return 0
    }
    return 1
}
# a load or a store: told, and kept for the first part
function touch(kind, place, value, looping,    base, places) {
    base = base_of(place)
    places = places_of(place)
    if (kind == "reads" && is_of_reference(places)) return
    tell(kind " " texts_of(places, 9) (base in index_at ? "[" index_at[base] "]" : "") value, looping)
    keep_edges(places, kind, name)
}
# what happens to each piece of memory that is meant: an access, or where it goes
function keep_edges(places, kind, where,    words, k, n, line) {
    if (!listing) return
    n = split(places, words, "|")
    for (k = 1; k <= n; k++) {
        words[k] = whole(words[k])
        line = "\n" kind "\t" where
        if (!((name, words[k]) in edges)) {
            touched[name] = touched[name] "\n" words[k]
            place_text[name, words[k]] = text_of(words[k])
        }
        if (index(edges[name, words[k]] "\n", line "\n") == 0) edges[name, words[k]] = edges[name, words[k]] line
    }
}
# every load in a term; a reference to a place is none
function loads(node, looping,    k) {
    while (head[node] != "addrOf") {
        if (head[node] == "copy" && is_in_memory(kid(node, 1))) touch("reads", kid(node, 1), "", looping)
        if (!count[node]) return
        for (k = 1; k < count[node]; k++) loads(kid(node, k), looping)
        node = kid(node, count[node])   # no call for the rest of a list: an array of constants is a long one
    }
}
function calls(node, looping,    list, text, all, lent) {
    for (list = kid(node, 2); head[list] == "lcons"; list = rest_of(list)) {
        text = memory_text(item_of(list))
        if (text != "") lent = 1
        all = all (all == "" ? "" : ", ") (text == "" ? number_text(item_of(list)) : text)
    }
    called[callee_of(node)] = called[callee_of(node)] " " crate_of(name)
    if (lent) tell(callee_of(node) "(" all ")", looping)
    else if (!alone[(looping ? "loop " : "") callee_of(node)]++)
        numbers = numbers (numbers == "" ? "" : ", ") (looping ? "loop " : "") callee_of(node)
}

function crate_of(text) {
    sub(/::.*/, "", text)
    return text
}

# what is lent to the function, and behind it
function keep_lent(type, place, level,    words, k, n) {
    lent_to[name] = lent_to[name] "\n" place
    place_text[name, place] = text_of(place)
    if (level > 9) too_deep()
    n = type == "" ? 0 : split(ways(type), words, "|")
    for (k = 1; k <= n; k++)
        keep_lent(pointee(type_on(type, words[k])), normal(place substr(words[k], 2) "*"), level + 1)
}

function read_function(node,    item, list, k, n, value, base, words, place, was) {
    name = bare(head[kid(node, 1)])
    item = kid(node, 2)
    arity = head[kid(item, 3)] + 0
    split("", type); split("", twin); split("", kinds); split("", normals); split("", type_at); split("", leads)
    split("", fresh); split("", number); split("", index_at)
    split("", statement); split("", in_loop); split("", times); split("", told); split("", alone)
    statements = tellings = 0
    numbers = ""
    split(parameters[name], parameter, " ")
    for (k = 1; k <= arity; k++) if (!(k in parameter)) parameter[k] = "#" k
    k = 0
    for (list = kid(item, 4); head[list] == "lcons"; list = rest_of(list)) {
        type[k] = kid(item_of(list), 1)
        if (head[kid(item_of(list), 2)] == "memorySlot") twin[k] = ++kinds[type_text(type[k])]
        k++
    }
    flatten(kid(item, 5), 0)
    # the numbers that are known: of a local that is only ever one constant or parameter
    for (k = 1; k <= statements; k++) {
        node = statement[k]
        if (head[node] == "call") learn(fresh, base_of(kid(node, 3)), "_")
        if (head[node] != "assign" || is_behind(kid(node, 1))) continue
        value = kid(node, 2)
        if (head[value] == "op2" && head[kid(value, 1)] == "mul" && head[kid(value, 3)] == "int") value = kid(value, 2)
        else value = head[value] == "rvOpd" ? kid(value, 1) : 0
        learn(fresh, base_of(kid(node, 1)), value ? number_text(value) : "_")
    }
    for (base in fresh) number[base] = fresh[base]
    # the index behind each pointer
    for (k = 1; k <= statements; k++) {
        value = head[statement[k]] == "assign" ? kid(statement[k], 2) : 0
        if (value && head[value] == "op2" && head[kid(value, 1)] == "offset")
            learn(index_at, base_of(kid(statement[k], 1)), number_text(kid(value, 3)))
    }
    # constants that lie in memory of their own
    for (k = 1; k <= statements; k++)
        if (head[statement[k]] == "lendStatic") twin["c", k] = ++kinds["constant " type_text(kid(statement[k], 2))]
    # the memory behind each reference
    was = listing
    listing = 0
    do {
        changed = 0
        for (k = 1; k <= statements; k++) {
            if (head[statement[k]] == "call") call(statement[k])
            else if (head[statement[k]] == "assign" || head[statement[k]] == "lendStatic") assign(statement[k], k)
        }
    } while (changed)
    listing = was
    if (!listing) {
        summarize()
        return
    }
    for (k = 1; k <= arity; k++) {
        n = split(ways(resolved(type[k] ":0")), words, "|")
        for (; n > 0; n--) {
            place = normal(k substr(words[n], 2) "*")
            keep_lent(type_at[place], place, 1)
        }
    }
    for (k = 1; k <= statements; k++) {
        node = statement[k]
        loads(node, in_loop[k])
        if (head[node] == "call") {
            call(node)
            calls(node, in_loop[k])
            if (is_in_memory(kid(node, 3))) touch("writes", kid(node, 3), " = _", in_loop[k])
        }
        if (head[node] == "assign" && is_in_memory(kid(node, 1))) {
            value = kid(node, 2)
            value = head[value] == "rvOpd" ? number_text(kid(value, 1)) : "_"
            touch("writes", kid(node, 1), " = " value, in_loop[k])
        }
    }
    if (part_of[name] != part || is_left_out(name)) return
    for (k = 1; k <= tellings; k++)
        if (crate_of(name) in listed || is_call_of_listed(told[k]))
            print name "  " told[k] (times[told[k]] > 1 ? " x" times[told[k]] : "")
    if (numbers != "" && crate_of(name) in listed) print name "  numbers: " numbers
}
# keeps where the references lead that the function gives or puts into what it is lent
function summarize(    place, words, k, n, line) {
    for (place in leads) if (leads[place] != "" && (place ~ /^0/ || is_given(place))) {
        n = split(leads[place], words, "|")
        for (k = 1; k <= n; k++) {
            line = place "=" words[k]
            if (index("\n" summary[name] "\n", "\n" line "\n") == 0) {
                summary[name] = summary[name] (summary[name] == "" ? "" : "\n") line
                summaries_changed = 1
            }
        }
    }
}
function is_call_of_listed(text) {
    sub(/^loop /, "", text)
    return crate_of(name) in calling && text !~ /^(reads|writes) / && crate_of(text) in searching
}
# does a type derive it that holds no reference, does it only hand a call on to a closure, or does it drop nothing?
function is_left_out(name,    k, n, words, it) {
    if (name ~ /\+Fn(Mut|Once)?::call(_mut|_once)?$|::Destruct\+\+none::drop$/) return 1
    n = split(derives, words, " ")
    for (k = 1; k <= n; k++) {
        it = substr(name, 1, length(name) - length(words[k]))
        if (it words[k] == name && it in shape && !holds_in(shape[it])) return 1
    }
    return 0
}
function are_left_out(names,    words, k) {
    for (k = split(names, words, "|"); k > 0; k--) if (!is_left_out(words[k])) return 0
    return 1
}
function holds_in(node,    k) {
    for (k = 1; k <= count[node]; k++) if (holds(kid(node, k) ":0", "")) return 1
    return 0
}

# ---------------------------------------------------------------- the first part

# who writes and who reads a piece of memory of a function: into `writers` and `readers`
function follow(where, place,    lines, words, keys, j, k, m, n, step) {
    if ((where, place) in met) return
    met[where, place] = 1
    m = split(touched[where], keys, "\n")
    for (j = 2; j <= m; j++) {
        # that place, a field in it, or what it is a field of
        if (index(keys[j], place) == 1 && substr(keys[j], length(place) + 1) ~ /^(\.[0-9]+)*$/) step = ""
        else if (index(place, keys[j]) == 1 && substr(place, length(keys[j]) + 1) ~ /^(\.[0-9]+)+$/)
            step = substr(place, length(keys[j]) + 1)
        else continue
        n = split(edges[where, keys[j]], lines, "\n")
        for (k = 2; k <= n; k++) {
            split(lines[k], words, "\t")
            if (words[1] == "writes") writers = join(writers, words[2])
            if (words[1] == "reads") readers = join(readers, words[2])
            if (words[1] == "lends") follow(words[2], words[3] step)
        }
    }
}
function in_order(text,    words, k, j, n, out) {
    n = split(text, words, "|")
    for (k = 2; k <= n; k++)
        for (j = k; j > 1 && words[j] < words[j - 1]; j--) {
            out = words[j]
            words[j] = words[j - 1]
            words[j - 1] = out
        }
    out = ""
    for (k = 1; k <= n; k++) out = out (k > 1 ? ", " : "") words[k]
    return out
}
function trace(where, place) {
    split("", met)
    writers = readers = ""
    follow(where, place)
    # a number that is only read, a struct of references only, or one that is only compared or printed
    if (place_text[where, place] ~ /^own u[0-9]+( [0-9]+)?$/ && writers == "") return
    if (place_text[where, place] ~ /^(own|constant) [^\[]/ && are_left_out(join(writers, readers))) return
    print "memory " where " " place_text[where, place] ": written by " (writers == "" ? "nobody" : in_order(writers)) \
        "; read by " (readers == "" ? "nobody" : in_order(readers))
}
# is the function called from a listed crate?
function is_inner(where,    words, k, n) {
    n = split(called[where], words, " ")
    for (k = 1; k <= n; k++) if (words[k] in listed) return 1
    return 0
}

END {
    if (depth || !functions) {
        print "doors: the MIR is not as expected" > "/dev/stderr"
        exit 2
    }
    n = split(crates, words, " ")
    for (k = 1; k <= n; k++) searching[words[k]] = listed[words[k]] = 1
    n = split(below, words, " ")
    for (k = 1; k <= n; k++) listed[words[k]] = 1
    n = split(callers, words, " ")
    for (k = 1; k <= n; k++) calling[words[k]] = 1
    for (k = 1; k <= nodes; k++)
        if (head[k] == "pair" && (head[kid(k, 2)] == "fields" || head[kid(k, 2)] == "variants"))
            shape[bare(head[kid(k, 1)])] = kid(k, 2)
    # what each call gives, until nothing more is found
    do {
        summaries_changed = 0
        for (f = 1; f <= functions; f++) read_function(definition[function_name[f]])
    } while (summaries_changed)
    listing = 1
    for (f = 1; f <= functions; f++) read_function(definition[function_name[f]])
    for (f = 1; f <= functions; f++) {
        name = function_name[f]
        if (!(crate_of(name) in searching) || is_left_out(name)) continue
        split("", done)
        n = is_inner(name) ? 0 : split(lent_to[name], pieces, "\n")
        for (k = 2; k <= n; k++) trace(name, pieces[k])
        n = split(touched[name], pieces, "\n")
        for (k = 2; k <= n; k++) {
            place = root_of(pieces[k])
            if (pieces[k] ~ /\*/ || place in done || place_text[name, pieces[k]] !~ /^(own|constant) /) continue
            done[place] = 1
            if (place_text[name, pieces[k]] ~ /^own (core|std[a-z_]*)::/) continue
            if (!((name, place) in place_text)) {
                place_text[name, place] = place_text[name, pieces[k]]
                sub(/\.[^ ]*$/, "", place_text[name, place])
            }
            trace(name, place)
        }
    }
}
