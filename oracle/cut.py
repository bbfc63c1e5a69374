#!/usr/bin/env python3
"""cut.py FROM TO: the published files that the oracle compiles, from FROM/src into TO.

The readers are copied byte for byte. Both mod.rs lose the members that document 01 leaves out, util.rs all but `collect_array`.
Nothing is added: every line written stands in the published file, but for one `use` list that loses two names."""
import pathlib
import re
import sys

RESPONSES = ["Ok", "Error", "WritePrompt", "CloseOk", "Iccid", "SignalQuality", "SystemInfo", "OperatorInfo",
             "NetworkTime", "DownloadInfo", "Imei", "SmsMessageFormat", "SmsMessage"]
RESPONSE_FILES = ["generic_response", "ccid", "cmgf", "cmgr", "cntp", "cops", "cpsi", "csq", "gsn", "httptofs"]
URCS = ["GnssReport", "NetworkRegistration"]
URC_FILES = ["cereg", "cgreg", "creg", "network_registration", "ugnsinf"]


def need(fact, what):
    if not fact:
        sys.exit("cut.py: the published source is not the expected one: " + what)


def cut_mod(text, enum, members, files):
    """Drop modules, uses, variants and trials that are not in the two lists; a statement goes as a whole."""
    kept, dropping = [], False
    for line in text.splitlines():
        if dropping:
            dropping = not line.endswith(";")
            continue
        module = re.match(r"(?:pub )?mod (\w+);$", line)
        use = re.match(r"(?:pub )?use (?:crate::at_command::)?(\w+)::", line)
        variant = re.match(r"    (\w+)\(\w+\),", line)
        trial = re.match(rf" +\.or_else\(parse\(line, {enum}::(\w+)\)\)$", line)
        if module and module[1] not in files + ["unsolicited"]:
            continue
        if use and use[1] not in files + ["core", "self", "super"]:
            dropping = not line.endswith(";")
            continue
        if (variant and variant[1] not in members) or (trial and trial[1] not in members):
            continue
        if re.match(r"    cgnscold::XtraStatus, ", line):
            line = re.sub(r"cgnscold::XtraStatus, |cgnscpy::CopyResponse, ", "", line)
        kept.append(line)
    cut = "\n".join(kept) + "\n"
    need(sorted(re.findall(r"^    (\w+)\(\w+\),", cut, re.M)) == sorted(members), enum + "'s members")
    need(re.findall(rf"^ +\.or_else\(parse\(line, {enum}::(\w+)\)\)$", cut, re.M) == members, enum + "'s order of trial")
    return cut


def main(source, target):
    source, target = pathlib.Path(source) / "src", pathlib.Path(target)
    for folder, files, enum, members in [("at_command", RESPONSE_FILES, "ResponseCode", RESPONSES),
                                         ("at_command/unsolicited", URC_FILES, "Urc", URCS)]:
        (target / folder).mkdir(parents=True, exist_ok=True)
        for name in files:
            (target / folder / (name + ".rs")).write_bytes((source / folder / (name + ".rs")).read_bytes())
        whole = (source / folder / "mod.rs").read_text()
        (target / folder / "mod.rs").write_text(cut_mod(whole, enum, members, files))
    collect = re.search(r"#\[track_caller\]\npub\(crate\) fn collect_array.*?\n}\n", (source / "util.rs").read_text(), re.S)
    need(collect, "util.rs has no collect_array")
    (target / "util.rs").write_text(collect[0])


main(*sys.argv[1:])
