# Metadata beside slots: write --sigmf, and read, verify, find, scan and inspect by it.
# shellcheck shell=bash

# The rules of SigMF as far as they are known here, for a file and the data that it is of; what is
# said of it goes to standard output.
sigmf_rules() {
    python3 - "$@" <<'END'
import hashlib, json, os, re, sys
meta, data = sys.argv[1:]
def once(pairs):
    assert len({name for name, _ in pairs}) == len(pairs), "a name twice"
    return dict(pairs)
top = json.load(open(meta, encoding="utf-8"), object_pairs_hook=once)
bytes_ = open(data, "rb").read()
wrong = []
def rule(text, holds):
    if not holds:
        wrong.append(text)
def whole(value, least=0):
    return type(value) is int and value >= least
rule("three parts", set(top) == {"global", "captures", "annotations"})
about = top["global"]
rule("datatype", re.fullmatch("[rc](f32|f64|i32|i16|u32|u16)_[lb]e|[rc][iu]8", about["core:datatype"]))
rule("version", re.fullmatch(r"\d+\.\d+\.\d+", about["core:version"]))
rule("sha512", about.get("core:sha512") == hashlib.sha512(bytes_).hexdigest())
rate = about.get("core:sample_rate", 1)
rule("sample rate", type(rate) in (int, float) and rate > 0)
for name in ("core:description", "core:recorder"):
    rule(name, type(about[name]) is str)
base = os.path.basename(data)
rule("dataset", about.get("core:dataset") == (None if base.endswith(".sigmf-data") else base))
named = {e["name"] for e in about["core:extensions"]}
for e in about["core:extensions"]:
    rule("extension", set(e) == {"name", "version", "optional"} and type(e["optional"]) is bool)
core = {"datatype", "version", "sha512", "sample_rate", "description", "recorder", "dataset",
        "extensions", "sample_start", "sample_count", "label", "comment", "generator"}
for part in [about, *top["captures"], *top["annotations"]]:
    for name in part:
        space, _, rest = name.partition(":")
        rule("name " + name, rest in core if space == "core" else space in named and rest)
for part in ("captures", "annotations"):
    starts = [each["core:sample_start"] for each in top[part]]
    rule(part + " start", all(whole(start) for start in starts))
    rule(part + " in order", starts == sorted(starts))
rule("one capture", [c["core:sample_start"] for c in top["captures"]] == [0])
for each in top["annotations"]:
    rule("count", whole(each["core:sample_count"], 1))
    rule("end", each["core:sample_start"] + each["core:sample_count"] <= len(bytes_))
    rule("label", 0 < len(each["core:label"]) <= 20 and type(each["core:comment"]) is str)
    rule("slot", each["mahyrei:slot"] // 8 == each["core:sample_start"])
print("; ".join(wrong))
END
}

# member FILE NAME: of its object `global`
member() {
    python3 -c 'import json, sys; print(json.load(open(sys.argv[1]))["global"].get(sys.argv[2]))' "$@"
}

has_python() {
    command -v python3 >/dev/null
}

test_write_sigmf() {
    begin
    has_python || return 0
    run 0 -q write --sigmf "$header" "$marker" frames run.slots
    alike 'slots that have metadata' slots run.slots
    same 'rules' '' "$(sigmf_rules run.slots.sigmf-meta run.slots)"
    same 'its header' "$header" "$(member run.slots.sigmf-meta mahyrei:header)"
    same 'its marker' "$marker" "$(member run.slots.sigmf-meta mahyrei:marker)"
    same 'its packing' msb-first "$(member run.slots.sigmf-meta mahyrei:packing)"
    same 'no rate' None "$(member run.slots.sigmf-meta mahyrei:slot_rate)"
    same 'no rate of samples' None "$(member run.slots.sigmf-meta core:sample_rate)"
    run 0 -q write --verify --sigmf --slot-rate 500000001 "$header" "$marker" frames x.sigmf-data
    same 'rules of data that is named so' '' "$(sigmf_rules x.sigmf-meta x.sigmf-data)"
    same 'the rate' 500000001 "$(member x.sigmf-meta mahyrei:slot_rate)"
    same 'the rate of samples' 62500000.125 "$(member x.sigmf-meta core:sample_rate)"
    # Neither of the two is replaced unless --force says so.
    cp x.sigmf-meta before
    rm x.sigmf-data
    run 2 write --sigmf "$header" "$marker" frames x.sigmf-data
    has 'metadata that is there' 'x.sigmf-meta: this file already exists' "$err"
    alike 'metadata that was there' before x.sigmf-meta
    same 'no slots' '' "$(ls x.sigmf-data 2>/dev/null)"
    run 0 -q write --force --sigmf "$header" "$marker" frames x.sigmf-data
    same 'rules of another' '' "$(sigmf_rules x.sigmf-meta x.sigmf-data)"
    same 'another' None "$(member x.sigmf-meta mahyrei:slot_rate)"
    unharmed 2 'only a file has metadata beside it' write --sigmf "$header" "$marker" frames -
    unharmed 2 'it is for the metadata, which --sigmf makes' \
        write --slot-rate 5 "$header" "$marker" frames out
    unharmed 2 'a rate is a whole number' write --sigmf --slot-rate 0 "$header" "$marker" frames out
    unharmed 2 'not a number' write --sigmf --slot-rate 1e9 "$header" "$marker" frames out
    # What is refused has no metadata.
    refused 8 0 write --sigmf "$header" "$marker" empty out
    # The slots themselves and the log are not replaced by it.
    run 2 --log out.sigmf-meta write --force --sigmf "$header" "$marker" frames out
    has 'the log' 'no metadata goes there' "$err"
    cp frames y
    ln -s y y.sigmf-meta
    run 2 -q write --sigmf --force "$header" "$marker" frames y
    has 'metadata that leads to the slots' 'no metadata goes there' "$err"
    alike 'slots that metadata leads to' slots y
    rm -f out* x.* y* before
}

test_read_sigmf() {
    begin
    run 0 -q write --sigmf "$header" "$marker" frames run.slots
    run 0 -q read --sigmf run.slots out
    alike 'frames by metadata' frames out
    rm out
    run 0 verify --sigmf run.slots
    has 'the log' "header=$header marker=5" "$err"
    run 0 inspect --sigmf run.slots
    has 'inspect' 'run.slots: mahyrei_run_read accepts it' "$(out)"
    run 0 -q find --sigmf run.slots
    same 'find' 0 "$(out)"
    run 0 -q scan --sigmf run.slots folder
    alike 'frames of a scan' frames folder/run-0.frames
    run 0 -q read --sigmf --capture run.slots out
    alike 'frames of a capture' frames out
    rm -r out folder
    # A capture whose metadata has no digest.
    capture 13 5 0
    grep -v core:sha512 run.slots.sigmf-meta >capture.sigmf-meta
    run 0 -q read --sigmf --capture capture out
    alike 'frames of a longer capture' frames out
    run 0 -q scan --sigmf capture
    has 'a longer capture' '1 run sound' "$(out)"
    run 1 verify --sigmf capture
    has 'a capture that is taken for slots' 'refused, number 8' "$err"
    rm out
    # Metadata and slots that do not go together are never judged.
    cp run.slots kept
    printf '\x80' | dd of=run.slots conv=notrunc status=none
    for words in 'read --sigmf run.slots out' 'read --sigmf --capture run.slots out' \
        'verify --sigmf run.slots' 'find --sigmf run.slots' 'scan --sigmf run.slots' \
        'inspect --sigmf run.slots' 'inspect --sigmf --capture run.slots'; do
        # shellcheck disable=SC2086  # several words are meant
        unharmed 2 'run.slots.sigmf-meta: its core:sha512 is of other slots than these' $words
        same "no answer to $words" 0 "$(grep -c refused "$said/err")"
    done
    mv kept run.slots
    unharmed 2 'no such option' cut --sigmf "$header" run.slots 0 out
    unharmed 2 'operand too many' read --sigmf "$header" "$marker" run.slots out
    unharmed 2 'number of operands' read --sigmf run.slots
    unharmed 2 'standard input has no metadata' read --sigmf - out
    unharmed 2 'frames.sigmf-meta: No such file' read --sigmf frames out
    run 2 --log run.slots.sigmf-meta verify --sigmf run.slots
    has 'a log in the metadata' "this is the log's file too" "$err"
}

# refused_meta TEXT: what is in run.slots.sigmf-meta is refused so, and nothing is judged
refused_meta() {
    unharmed 2 "run.slots.sigmf-meta: $1" read --sigmf run.slots out
    unharmed 2 "run.slots.sigmf-meta: $1" scan --sigmf run.slots
}

# changed WHAT TO: the metadata with this in place of that
changed() {
    sed "s|$1|$2|" good >run.slots.sigmf-meta
    same "the change of $1" differs "$(cmp -s good run.slots.sigmf-meta || echo differs)"
}

test_hostile_sigmf() {
    begin
    run 0 -q write --sigmf --slot-rate 9 "$header" "$marker" frames run.slots
    mv run.slots.sigmf-meta good
    # shellcheck disable=SC2016  # it is said so
    local no_document='this is not a JSON object with an object `global` in it, or has a name twice'
    local text
    for text in '' '{' '[]' '{}' 'null' '{"global":[]}' '{"global":{}}x' '{"global":{},}' \
        '{"global":{},"global":{}}' '{"captures":[]}' '{"global":{"a":01}}' '{"global":{"a":1.}}' \
        '{"global":{"a":-}}' '{"global":{"a":1e}}' '{"global":{"a":truth}}' '{"global":{"a"}}' \
        '{"global":{"a":"\x"}}' '{"global":{"a":[1,]}}' '{"global":{"a":{"b":1,}}}' \
        '{"global":{"a":{1:1}}}' '{"global":{"a":[1}}}'; do
        printf '%s' "$text" >run.slots.sigmf-meta
        refused_meta "$no_document"
    done
    for text in '"mahyrei:header": "00", "mahyrei:header"' '"core:sha512": "", "core:sha512"'; do
        changed "${text##*, }" "$text"
        refused_meta "$no_document"
    done
    { cat good && printf '\0'; } >run.slots.sigmf-meta
    refused_meta "$no_document"
    # 64 levels are taken, the document and `global` among them; one more, or a million, is not.
    changed '"core:recorder": "[^"]*"' "\"a\": $(printf '[%.0s' {1..62})$(printf ']%.0s' {1..62})"
    run 0 -q verify --sigmf run.slots
    changed '"core:recorder": "[^"]*"' "\"a\": $(printf '[%.0s' {1..63})$(printf ']%.0s' {1..63})"
    refused_meta "$no_document"
    head -c 1000000 /dev/zero | tr '\0' '[' >run.slots.sigmf-meta
    refused_meta "$no_document"
    { printf '{"global":' && head -c 1000000 /dev/zero | tr '\0' '{'; } >run.slots.sigmf-meta
    refused_meta "$no_document"
    { cat good && head -c 70000000 /dev/zero | tr '\0' ' '; } >run.slots.sigmf-meta
    refused_meta 'larger than 64 MiB'
    # Members of a wrong kind.
    changed ru8 cf32_le
    refused_meta 'core:datatype is not ru8'
    changed '"ru8"' 8
    refused_meta 'core:datatype is not ru8'
    changed msb-first lsb-first
    refused_meta 'mahyrei:packing is not msb-first'
    for text in '"'"$header"'0"' '"'"$header"'00"' '"hex:50"' 50157 null '["50"]'; do
        changed "\"mahyrei:header\": \"[^\"]*\"" "\"mahyrei:header\": $text"
        refused_meta 'mahyrei:header is not a header in hexadecimal digits'
    done
    changed '"mahyrei:header"' '"mahyrei:headers"'
    refused_meta 'mahyrei:header is not a header in hexadecimal digits'
    for text in '"0"' "\"$(printf '%066d' 0)\"" 5 '{}'; do
        changed "\"mahyrei:marker\": \"[^\"]*\"" "\"mahyrei:marker\": $text"
        refused_meta 'mahyrei:marker is not a marker in hexadecimal digits'
    done
    for text in '"9"' 9.5 -9 18446744073709551616 1e9 true; do
        changed '"mahyrei:slot_rate": 9' "\"mahyrei:slot_rate\": $text"
        refused_meta 'mahyrei:slot_rate is not a whole number'
    done
    for text in '""' '"00"' 5 "\"$(printf '%0128d' 0 | tr 0 g)\""; do
        changed "\"core:sha512\": \"[^\"]*\"" "\"core:sha512\": $text"
        refused_meta 'core:sha512 does not have 128 hexadecimal digits'
    done
    changed "\"core:sha512\": \"[^\"]*\"" "\"core:sha512\": \"$(printf '%0128d' 0)\""
    refused_meta 'its core:sha512 is of other slots than these'
    # A header that is none, and a marker that does not go with it, are for the library to judge.
    changed "\"mahyrei:header\": \"[^\"]*\"" '"mahyrei:header": ""'
    run 1 verify --sigmf run.slots
    changed "\"mahyrei:marker\": \"[^\"]*\"" '"mahyrei:marker": "05"'
    refused 8 0 read --sigmf run.slots out
    # Texts may be escaped, and names of others, values of any kind and blanks may be there.
    changed '"core:recorder": "[^"]*"' '"x:y": [{}, {"a": [true, false, null, -0.5e+7]}, "\\u00e9"]'
    run 0 -q verify --sigmf run.slots
    changed '"core:datatype"' '"core:d\\u0061tatype"'
    run 0 -q verify --sigmf run.slots
    tr '\n' '\t' <good >run.slots.sigmf-meta
    run 0 -q verify --sigmf run.slots
}

# labels FILE: of its annotations, each with its slot and number
labels() {
    python3 -c 'import json, sys
for each in json.load(open(sys.argv[1]))["annotations"]:
    print(each["core:label"], each["mahyrei:slot"], each["mahyrei:number"], end=";")' "$1"
}

# A recording that begins within a run, with a sound run and then a damaged one: what scan says of
# each start is what its annotations have.
test_scan_annotations() {
    begin
    has_python || return 0
    damage lose 7000
    capture 13 5 0
    "$tool" "$header" capture 3 5 0 <damaged >broken
    { tail -c 20000 slots && cat capture broken && head -c 20000 slots; } >recording
    run 0 -v scan --annotations recording.sigmf-meta "$header" "$marker" recording
    same 'rules' '' "$(sigmf_rules recording.sigmf-meta recording)"
    same 'annotations' "$(sed -En \
        's/.*slot ([0-9]+): a run begins.*/sound run \1 0/p
         s/.*slot ([0-9]+): refused, number ([0-9]+),.*/refused start \1 \2/p' "$said/err" |
        tr '\n' ';')" "$(labels recording.sigmf-meta)"
    has 'one is sound' 'sound run 160013 0;' "$(labels recording.sigmf-meta)"
    has 'its frames' "$(sha256sum <frames | cut -c 1-64)" "$(<recording.sigmf-meta)"
    # What was annotated explains itself, and has the same annotations again.
    run 0 -q scan --sigmf recording --annotations again
    same 'annotations again' "$(labels recording.sigmf-meta)" "$(labels again)"
    run 2 scan --sigmf --force recording --annotations recording.sigmf-meta
    has 'metadata that is read' 'no annotations go there' "$err"
    run 2 scan --force "$header" "$marker" recording --annotations recording
    has 'the recording' 'no annotations go there' "$err"
    run 2 scan "$header" "$marker" recording --annotations again
    has 'annotations that are there' 'again: this file already exists' "$err"
    # Nothing to find is no reason to write.
    unharmed 1 'refused, number 8' scan "$header" 05 recording --annotations out
    run 0 -q scan "$header" "$marker" - --annotations out <capture
    same 'standard input has no name' None "$(member out core:dataset)"
    same 'one run' 'sound run 13 0;' "$(labels out)"
    unharmed 2 'no such option' verify "$header" "$marker" slots --annotations out
}

test_inspect_annotations() {
    begin
    has_python || return 0
    run 0 inspect --annotations sound "$header" "$marker" slots
    same 'rules of a sound run' '' "$(sigmf_rules sound slots)"
    same 'a sound run' 'sound run 0 0;' "$(labels sound)"
    # Symbols 7000 and 7001, of twenty slots each.
    damage lose 7000
    "$tool" "$header" lose 7001 <damaged >both
    run 1 inspect --annotations both.sigmf-meta "$header" "$marker" both
    same 'rules of a damaged run' '' "$(sigmf_rules both.sigmf-meta both)"
    same 'a damaged run' 'refused run 0 10;no pulse 140000 10;' "$(labels both.sigmf-meta)"
    has 'both symbols' '"mahyrei:slots": 40, "mahyrei:number": 10, "mahyrei:place": 7000' \
        "$(<both.sigmf-meta)"
    run 1 inspect --sigmf both --annotations again
    alike 'by its own annotations' both.sigmf-meta again
    "$tool" "$header" capture 13 5 0 <both >capture
    run 1 inspect --capture --annotations captured "$header" "$marker" capture
    same 'rules of a capture' '' "$(sigmf_rules captured capture)"
    same 'in a capture' 'refused run 13 10;no pulse 140013 10;' "$(labels captured)"
    # As far as slots go that are cut short.
    head -c 17501 both >shorter
    run 1 inspect --annotations shorter.sigmf-meta "$header" "$marker" shorter
    same 'rules of slots that are cut short' '' "$(sigmf_rules shorter.sigmf-meta shorter)"
    same 'cut short' 'refused run 0 8;' "$(labels shorter.sigmf-meta)"
    has 'why' '"refused, number 8, place 0: The slots are longer or shorter than the header says."' \
        "$(<shorter.sigmf-meta)"
    head -c 17503 both >shorter
    run 1 -f inspect --annotations shorter.sigmf-meta "$header" "$marker" shorter
    same 'cut within the damage' 'refused run 0 8;no pulse 140000 10;' "$(labels shorter.sigmf-meta)"
    run 1 inspect --annotations none "$header" "$marker" empty
    same 'of nothing' '' "$(labels none)"
}

# Of many starts that are refused the annotations have the first 10,000, and that is said.
once_many_annotations() {
    begin
    has_python || return 0
    local short
    short=$(header 1 2 1 1 1 1 1)
    # Eight symbols of value 0 at a time, whose slots are 1000 and a guard slot.
    printf '\x84\x21\x08\x42\x10%.0s' {1..1251} >many
    run 1 scan --annotations out "$short" 00 many
    has 'how many' 'out: of the starts refused it has the first 10000' "$err"
    same 'rules' '' "$(sigmf_rules out many)"
    same 'how many there are' 10000 "$(grep -c '"core:label": "refused start"' out)"
}
