# shellcheck shell=bash
# Which bytes are trees, archives and schemas.

# no_tree TEXT FAULT: a text that is no tree, with its escapes as printf knows them
no_tree() {
    begin "no tree: $1"
    no_change
    with_bytes A "$1"
    sync
    ends 3 "harmony: BadReplica A $2"
    finish
}

# no_archive TEXT FAULT: a text that is no archive
no_archive() {
    begin "no archive: $1"
    no_change
    with_bytes archive "$1"
    sync
    ends 3 "harmony: BadArchive $2"
    finish
}

# a_tree TEXT: a tree, which reaches the other files as it is spelled
a_tree() {
    begin "a tree: $1"
    files "$OLD" "$OLD" "$OLD" "$OLD" "$OLD" "$OLD"
    printf %b "$1" >A
    for slot in archive A B; do
        cp A ../want/$slot
    done
    sync
    ends 0 agreed
    finish
}

# refuse_schema TITLE SCHEMA STATUS LINE: each file stays
refuse_schema() {
    begin "$1"
    no_change
    with_schema "$2"
    sync
    ends "$3" "$4"
    finish
}

# accept_schema TITLE SCHEMA: what A changed reaches the other files
accept_schema() {
    begin "$1"
    change
    with_schema "$2"
    sync
    ends 0 agreed
    finish
}

# no_schema LINE TEXT: a text whose first bad line is this, with its escapes as printf knows them
no_schema() {
    begin "no schema: $2"
    no_change
    with_bytes schema "$2"
    sync
    ends 3 "harmony: BadSchema $1"
    finish
}

# a_schema TEXT: the schema of some trees, of which the old and the new one are
a_schema() {
    begin "a schema: $1"
    change
    with_bytes schema "$1"
    read_as_schema
    sync
    ends 0 agreed
    finish
}

refuse_schema 'an empty schema' empty 3 'harmony: BadSchema 1'
refuse_schema 'a tree as schema' "$OLD" 3 'harmony: BadSchema 1'
refuse_schema 'schema too large' too-large 3 'harmony: TooLarge schema'
refuse_schema 'too many nodes' too-many-nodes 3 'harmony: BadSchema 2004'
refuse_schema 'too many shapes' too-many-shapes 3 'harmony: BadSchema 261'
accept_schema 'the largest schema' largest-schema
accept_schema 'the most nodes' most-nodes
accept_schema 'the most shapes' most-shapes

no_tree '{"a"}' 'BadItem 5'
no_tree '{"a"}\n\n' 'BadItem 6'
no_tree '{"a"}\r\n' 'BadItem 5'
no_tree '{"a"} \n' 'BadItem 5'
no_tree '{"a","a"}\n' 'BadItem 7'
no_tree '{"a":{}}\n' 'BadItem 6'
no_tree '{"a":!}\n' 'BadItem 5'
no_tree '{"a"\n' 'BadItem 4'
no_tree '{"a\tb"}\n' 'BadItem 3'
no_tree '{"\x7f"}\n' 'BadItem 2'
no_tree '{"\\n"}\n' 'BadItem 3'
no_tree '{"\\x41"}\n' 'BadItem 4'
no_tree '{"\\x1F"}\n' 'BadItem 5'
no_tree '{"\xff"}\n' 'NotUtf8 2'
no_tree '{"b","a\xc3\n' 'NotUtf8 7'

no_archive '{"a"}' 'at 5'
no_archive '!' 'at 1'
no_archive '{"b","a"}\n' 'at 6'
no_archive "$(printf '{"a":%.0s' {1..1001})" deep
no_archive "$(printf '{"a":%.0s' {1..1000})" 'at 5000'
no_archive '\n' 'at 0'
no_archive '{"a":!,"a":!}\n' 'at 9'
no_archive '{"\xc3(' 'at 3'

a_tree '{"back\\\\slash","quoted \\"name\\""}\n'
a_tree '{"":{"\\x00\\x1f\\x7f"}}\n'
a_tree '{"Adreßbuch":{"ä"},"名前":{" "}}\n'

no_schema 1 'harmony schema 2\nroot Empty\n'
no_schema 1 'root Empty\nharmony schema 1\n'
no_schema 1 ' harmony schema 1\nroot Empty\n'
no_schema 2 'harmony schema 1\n'
no_schema 2 'harmony schema 1\nharmony schema 1\n'
no_schema 2 'harmony schema 1\nnode R\n  shape\n'
no_schema 2 'harmony schema 1\nroot R\n'
no_schema 3 'harmony schema 1\nroot Empty\nroot Empty\n'
no_schema 3 'harmony schema 1\nroot Empty\n  shape\n'
no_schema 3 'harmony schema 1\nroot R\nnode R\n'
no_schema 3 'harmony schema 1\nroot R\nnode R\n  shape + 1\n'
no_schema 3 'harmony schema 1\nroot Empty\nnode Empty\n  shape\n'
no_schema 5 'harmony schema 1\nroot R\nnode R\n  shape\nnode R\n  shape\n'
no_schema 4 'harmony schema 1\nroot R\nnode R\n  edge a S\n  shape\n'
no_schema 4 'harmony schema 1\nroot R\nnode R\n  other any S\n  shape\n'
no_schema 4 'harmony schema 1\nroot R\nnode R\n  other most R\n  shape\n'
no_schema 5 'harmony schema 1\nroot R\nnode R\n  edge a R\n  edge "a" R\n  shape\n'
no_schema 5 'harmony schema 1\nroot R\nnode R\n  other any R\n  other any R\n  shape\n'
no_schema 4 'harmony schema 1\nroot R\nnode R\n  shape a\n  shape\n'
no_schema 5 'harmony schema 1\nroot R\nnode R\n  edge a R\n  shape a ? a\n'
no_schema 5 'harmony schema 1\nroot R\nnode R\n  other any R\n  shape + 2..1\n'
no_schema 5 'harmony schema 1\nroot R\nnode R\n  other any R\n  shape + 01..1\n  shape\n'
no_schema 5 'harmony schema 1\nroot R\nnode R\n  other any R\n  shape + 18446744073709551616..\n  shape\n'
no_schema 4 'harmony schema 1\nroot R\nnode R\n  shape + 0..\n'
no_schema 4 'harmony schema 1\nroot R\nnode R\n shape\n  shape\n'
no_schema 4 'harmony schema 1\nroot R\nnode R\n   shape\n  shape\n'
no_schema 4 'harmony schema 1\nroot R\nnode R\n\tshape\n  shape\n'
no_schema 4 'harmony schema 1\nroot R\nnode R\n  shape \n  shape\n'
no_schema 5 'harmony schema 1\nroot R\nnode R\n  shape\n  shape\r'
no_schema 4 'harmony schema 1\nroot R\nnode R\n  edge \xff R\n  shape\n'
no_schema 9 '# a comment\n\nharmony schema 1\n\nroot R\n  \n# \xff\nnode R\n  edge R\n  shape\n'

a_schema 'harmony schema 1\r\nroot R\r\nnode R\r\n  other any R\r\n  shape + 0..\r\n'
a_schema 'harmony schema 1\nroot R\nnode R\n  other any R\n  shape + 0..'
a_schema '\n# trees\n   \nharmony  schema 1\n#\xff\nroot   R\n\nnode R\n  shape +   0..\n  other   any R\n'
a_schema 'harmony schema 1\nroot R\nnode R\n  shape old\n  shape "new"\n  edge "old" Empty\n  edge new Empty\n'
a_schema 'harmony schema 1\nroot R\nnode R\n  edge old Empty\n  other folded Empty\n  shape ? old + 0..1\n'
a_schema 'harmony schema 1\nroot *\nnode *\n  other clean _-.9\n  shape + 1..18446744073709551615\nnode _-.9\n  shape ?\n'
