# Reads the log of a check of an edited crate, and says what became of the edit: one word, a tab, and why.
#
#   fact      refused, since a fact no longer holds
#   unfit     refused, since the proof no longer fits the code: a goal that is gone, a field that is gone, nothing
#             to rewrite
#   invalid   refused, since the edited text is no valid Rattle or has no meaning
#   proved    not refused
#   unknown   the log does not say
#
# Two things are facts that fail whatever the proof's first error is: a goal of the code that is false for some values, and a goal
# that no proof file answers, so that the check proved it by itself before the edit and does not now. The second does not hold
# where what a loop keeps was refused too, or where an answer lost its goal and the two are of one kind: the edit may
# have given that goal another name.
#
# Run it as LC_ALL=C awk -f tests/refusal.awk LOG, or, for the second of these, with -v crate=NAME and in -v answered=..
# the goals that the crate's proof files answer, each between blanks.

function verdict(word, why) {
    if (length(why) > 500) {
        why = substr(why, 1, 500)
        # no half of a character
        sub(/[\300-\377][\200-\277]*$/, "", why)
        why = why " .."
    }
    class = word
    reason = why
}

# The prover says of each definition that stands on a refused one that it was not admitted: what matters
# is the error that came before.
function is_follow_up(line) { return line ~ /was not admitted/ }

function kind(goal) {
    sub(/[-`].*/, "", goal)
    return goal
}

function judge_error(    place, said, short) {
    place = head; sub(/: error.*/, "", place)
    said = head; sub(/^.*: error(\[[^]]*\])?: /, "", said)
    sub(/^\.\//, "", place)

    if (head ~ /: error\[/)
        return verdict("invalid", "the edited text is not valid Rattle (" place ": " said ")")
    if (place ~ /^src\//)
        return verdict("invalid", "the edited contract has no meaning (" place ": " said ")")
    if (place ~ /^specs\// && said !~ /the two types/)
        return verdict("invalid", "the edited definition has no meaning (" place ": " said ")")

    if (said ~ /has no `/)
        return verdict("unfit", "the proof names what the edited code no longer has (" place ": " said ")")
    # a long name stands on the first line alone, and what is said of it on the second
    short = head " " second
    if (short ~ /has no field/ || said ~ /projects from a record, but/)
        return verdict("unfit", "the proof asks for a fact that the edited code no longer gives (" place ": " said ")")
    if (said ~ /this pattern needs a function \(or path\) type to bind/ || said ~ /binders, but its type has room for only/)
        return verdict("unfit", "the proof takes more variables than the edited code has (" place ": " said ")")
    if (said ~ /a tuple is checked against/ || said ~ /does not read the goal/)
        return verdict("unfit", "the proof answers another goal than the edited code has (" place ": " said ")")
    if (said ~ /is not in scope/ && said !~ /is not in scope here/)
        return verdict("unfit", "a name is not known (" place ": " said ")")
    if (said ~ /no occurrence of the path/ || said ~ /`rw`: no part of the goal/)
        return verdict("unfit", "a step of the proof finds nothing to rewrite in the edited code (" place ": " said ")")
    if (said ~ /expected type `?goal\./)
        return verdict("unfit", "the proof answers another goal than the edited code has (" place ": " said ")")
    if (said ~ /is in a cycle of calls/)
        return verdict("unfit", "the edited code calls in a cycle, and the proof is for code that does not (" place ": " said ")")
    verdict("fact", place ": " said)
}

# The crates below are checked first where that is still to do, so that the last verdict is that of the edited crate.
/^logic=proved/ { accepted = 1 }
/^logic=not-proved/ { refused = 1; accepted = 0 }
/^note: .*: it is not proved that .*; the facts known there allow values/ && refuted == "" { refuted = $0 }
/Invariants\.antt:.*: error/ { kept = 1 }
# The kind of a goal is what its name begins with.
/: error: .*has no `/ { lost[kind(substr($0, index($0, "has no `") + 8))] = 1 }
/^note: .*: it is not proved that .*\(`[^`]*`\)/ && crate != "" {
    goal = $0; sub(/^.*: it is not proved that .*\(`/, "", goal); sub(/`\).*/, "", goal)
    if (index(answered, " " goal " ") == 0) { own_goal[++owns] = goal; own_note[owns] = $0 }
}
# the first error decides
class != "" { next }
# An error is one line and the indented lines behind it.
/^[^ ]/ && head != "" { judge_error(); next }
head != "" { if (whole == head) second = $0; whole = whole "\n" $0; next }
/^[^ ].*: error(\[[^]]*\])?: / && !/^(note|help): / {
    if (is_follow_up($0)) next
    head = $0; whole = $0
    next
}
/^note: .*: it is not proved that/ && note == "" { note = $0 }
# the invariant of a type, of which the check speaks in other words
/^note: .*: `search` found no proof \(`invariant_of-[^`]*`\)/ && note == "" { note = $0 }
/^fn .*: no proof: expected/ && !/did not prove/ && unmade == "" { unmade = $0 }
/^fn .*does not cover/ && unmade == "" { unmade = $0 }

END {
    if (class == "" && head != "") judge_error()
    if (class == "unfit" && refused && refuted != "") { sub(/^note: /, "", refuted); verdict("fact", refuted) }
    for (i = 1; i <= owns && class == "unfit" && refused && !kept; i++)
        if (!(kind(own_goal[i]) in lost)) { sub(/^note: /, "", own_note[i]); verdict("fact", own_note[i]) }
    if (class == "fact" && !refused) verdict("unknown", "the log has no verdict: the run broke off")
    if (class == "") {
        if (accepted) verdict("proved", "the edit was not refused")
        else if (!refused) verdict("unknown", "the log has no verdict: the edit did not reach the prover, or the run broke off")
        # no error of its own: a function that Rattle proves by itself, and now does not
        else if (unmade != "") verdict("unfit", "the edited code needs a proof that no one wrote (" unmade ")")
        else if (note != "") { sub(/^note: .*: it is not/, "it is not", note); sub(/^note: /, "", note); verdict("fact", note) }
        else verdict("unknown", "the log does not say why the edit was refused")
    }
    print class "\t" reason
}
