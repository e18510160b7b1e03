#!/bin/sh
# Lists names that mean two things, a line each: a name of specs/ or proofs/ that is defined in more than one file, or
# differs from another's only in case or in an underscore; a public type or a public function that two libraries define;
# and a type, or another name of one, that two files of a library define. Nothing is the right answer. Not counted:
# - the answers to goals in proofs/, and what stands in a proof by hand (Proof.antt, Send.antt, Sync.antt), whose names the
#   prover gives;
# - a type and the lemma that makes it, in one file of proofs/;
# - the events' verbs in the five files whose names say their layer. Clauses cite them as `outcome.sent` or
#   `outline.Places`: rb_desk's Outline, and Publishing, Outcome, Told and Moves of rb_core;
# - laws, whose names are those of one theorem at several layers (`laws.rt`, `courses.rt`);
# - functions and types of programs, of tests and of static libraries, which nobody else uses;
# - `Tables` of cs_group, private in two files.
#   sh checks/names.sh        ends with status 1 where it lists a name
. "$(dirname "$0")/begin.sh"
files=$(find crates \( -path '*/specs/*' -o -path '*/proofs/*' \) -name '*.antt' -not -path '*/out/*' \
    -not -name Proof.antt -not -name Send.antt -not -name Sync.antt)
types=$(find crates -path '*/src/*' -name '*.rt' -not -path '*/out/*')
[ -n "$files" ] && [ -n "$types" ] || fail 'no file of specs/, proofs/ or src/ was found' 2
# each definition's name and file
definitions=$(
    awk '
        /^(abbrev |unfoldable |pub )*(record |data )?[^ :({-][^ :({]* ([({].*)?: / && !/^(use|pub use|mod|pub mod|infix|--)/ {
            line = $0
            gsub(/^((abbrev|unfoldable|pub|record|data) )+/, "", line)
            name = line
            sub(/[ :({].*/, "", name)
            if (line ~ /: goal\./ || name ~ /◌/) next
            print name, FILENAME
        }' $files |
        sort -u
)
# each public type of a crate
public=$(
    awk '
        /^pub (struct|enum|trait) / {
            name = $3
            sub(/[<({;:].*/, "", name)
            split(FILENAME, parts, "/")
            print name, parts[2]
        }' $types |
        sort -u
)
# the crates that others use
libraries=$(
    sed -n 's/^\([a-z_]*\):.*/\1/p' crates.txt | while read -r crate; do
        [ -e "crates/$crate/src/main.rt" ] || grep -rq '^#\[test\]' "crates/$crate/src" || echo "$crate"
    done
)
# each public function that stands in no impl, and each type with the file of a library
functions=$(
    awk '
        /^pub (const )?fn / && FILENAME !~ /\/(laws|courses)\.rt$/ {
            name = $0
            sub(/^pub (const )?fn /, "", name)
            sub(/[<(].*/, "", name)
            split(FILENAME, parts, "/")
            print name, parts[2]
        }' $types |
        sort -u
)
kinds=$(
    awk '
        /^(pub(\([a-z]*\))? )?(struct|enum|trait|type) / {
            name = $0
            sub(/^(pub(\([a-z]*\))? )?(struct|enum|trait|type) /, "", name)
            sub(/[<({;:= ].*/, "", name)
            split(FILENAME, parts, "/")
            print name, parts[2], FILENAME
        }' $types |
        sort -u
)
[ -n "$definitions" ] && [ -n "$public" ] && [ -n "$libraries" ] && [ -n "$functions" ] && [ -n "$kinds" ] ||
    fail 'no definition, no public type or no public function was found' 2
list=$(
    echo "$definitions" |
        awk '
            function layer(file) {
                return file ~ /(rb_desk\/specs\/Outline|rb_core\/specs\/(Publishing|Outcome|Told|Moves))\.antt$/
            }
            {
                key = tolower($1)
                gsub(/[_-]/, "", key)
                n[key]++
                name[key, n[key]] = $1
                file[key, n[key]] = $2
            }
            END {
                for (key in n) {
                    if (n[key] < 2) continue
                    layers = same = 1
                    for (i = 1; i <= n[key]; i++) {
                        if (!layer(file[key, i]) || name[key, i] != name[key, 1]) layers = 0
                        if (file[key, i] != file[key, 1] || file[key, i] !~ /\/proofs\//) same = 0
                    }
                    if (layers || same) continue
                    line = ""
                    for (i = 1; i <= n[key]; i++) line = line " " name[key, i] " (" file[key, i] ")"
                    print substr(line, 2)
                }
            }'
    echo "$public" |
        awk '{ n[$1]++; where[$1] = where[$1] " " $2 } END { for (t in n) if (n[t] > 1) print t ":" where[t] }'
    {
        echo "$libraries" | sed 's/^/library /'
        echo "$functions" | sed 's/^/function /'
        echo "$kinds" | sed 's/^/kind /'
    } |
        awk '
            $1 == "library" { is_library[$2] = 1 }
            $1 == "function" && is_library[$3] { n[$2]++; where[$2] = where[$2] " " $3 }
            $1 == "kind" && is_library[$3] { m[$3 "::" $2]++; files[$3 "::" $2] = files[$3 "::" $2] " " $4 }
            END {
                for (f in n) if (n[f] > 1) print f ":" where[f]
                for (k in m) if (m[k] > 1 && k != "cs_group::Tables") print k ":" files[k]
            }'
)
[ -z "$list" ] && exit 0
echo "$list" | sort
fail "$(echo "$list" | wc -l) names mean two things"
