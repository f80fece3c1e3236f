#!/usr/bin/env python3
"""Gives the repository's definitions and lemmas today's spelling: words in snake case. Types, constructors and modules keep theirs.

usage: python3 tools/port_names.py [--dashes]    at the top of a repository that port.py has turned, once

--dashes applies the third rule alone.

Three rules:
- a name with a capital after a small letter, as hubAttach, is spelled hub_attach, in specs/, proofs/, the clauses of src/ and must-fail/;
- the numbers of CONSTANTS, which were spelled like types, get the names given there. Which name a file means is told by its imports,
  since Error is also an answer and HubDescriptor two numbers;
- a name whose words a dash joins, as bound-ended, is spelled bound_ended, unless that name is taken.
Words of the USB standard in comments, as bDescriptorType, stay, and what stands between quotation marks.
"""
import glob
import os
import re
import sys

FIELDS = """Used Number Speed Status ConfigurationIndex PortNumber Parent Hub Error LastTransfer DeviceDescriptor MaxPacketSize0
ConfigurationDescriptor TotalLength ConfigurationValue HubDescriptor PortCount PowerGoodDelay HubStatus PortStatus Children Child MaxChildren
Interfaces EndpointCount InterfaceClass EndpointAddress EndpointAttributes""".split()


def snake(word):
    return re.sub(r"([a-z0-9])([A-Z])", lambda m: m.group(1) + "_" + m.group(2).lower(), word)


def lower(word):
    return snake(word[0].lower() + word[1:])


CONSTANTS = {
    "Rattle.usb_store.specs.Layout": {name: lower(name) + "_field" for name in FIELDS}
    | {"Places": "place_count", "PlaceLength": "place_length", "StoreLength": "store_length", "Ports": "ports_per_hub"},
    "Rattle.usb_store.specs.Values": {
        "High": "high_speed", "Full": "full_speed", "Low": "low_speed", "Attached": "attached_status", "Powered": "powered_status",
        "Default": "default_status", "Addressed": "addressed_status", "Configured": "configured_status", "NoHub": "not_hub",
        "WithoutDescriptor": "hub_without_descriptor", "WithDescriptor": "hub_with_descriptor"},
    "Rattle.usb_types.specs.Actions": {"ActionLength": "action_length"},
    "Rattle.usb_types.specs.Descriptors": {
        "DeviceDescriptor": "device_descriptor_type", "ConfigurationDescriptor": "configuration_descriptor_type",
        "InterfaceDescriptor": "interface_descriptor_type", "EndpointDescriptor": "endpoint_descriptor_type",
        "HubDescriptor": "hub_descriptor_type", "HubClass": "hub_class"},
    "Rattle.usb_types.specs.Requests": {
        name: lower(name) + "_code" for name in
        "GetStatus ClearFeature SetFeature SetAddress GetDescriptor GetConfiguration SetConfiguration GetInterface SynchFrame".split()}
    | {"ToDevice": "to_device", "ToHub": "to_hub", "ToPort": "to_port"},
    "Rattle.usb_model.specs.Walk": {
        "MaxInterfaces": "max_interfaces", "MaxEndpoints": "max_endpoints", "InterfaceLength": "interface_length",
        "EndpointLength": "endpoint_length", "RecordLength": "record_length"},
    "Rattle.usb_model.specs.Features": {
        name: name.lower().replace("-", "_") for name in
        """PORT-CONNECTION PORT-ENABLE PORT-SUSPEND PORT-OVER-CURRENT PORT-RESET PORT-POWER PORT-LOW-SPEED PORT-HIGH-SPEED
        C-PORT-CONNECTION C-PORT-ENABLE C-PORT-OVER-CURRENT C-PORT-RESET""".split()},
    "Rattle.usb_model.specs.Bench": {"Fill": "fill_byte"},
    "Rattle.busrun.specs.Run": {"LogLength": "log_length"},
    "Rattle.usb_model.proofs.Ways": {"Logged": "logged_world"},
}
# A lemma whose name would fall together with that of the definition that it speaks of.
CLASHES = {"Rattle.replays.proofs.Agreement": {"same_int": "equal-same_int"}}
WORD = r"[A-Za-z_][\w'-]*"
TOKEN = re.compile(rf"(?<![\w'-]){WORD}")
USE = re.compile(r"^\s*(pub )?(?:ghost )?use (\S+?)(?: as (\S+?))?(?:\.\{([^}]*)\})?;?$", re.M)
# a name as antt reads it; a definition, a field or a lemma; an answer to a goal that the check makes
NAME = re.compile(r"[^\s(){}\[\],;.`\"|]+")
STATED = re.compile(r"^\s*(?:(?:abbrev|unfoldable|pub)\s+)*([^\s:({]+)(?: [^:=]*)? : ")
MADE = re.compile(r"^\s*(?:(?:abbrev|pub)\s+)*([^\s:({]+) : (?:goal|tie|lts)\.")
OWN = tuple(f"Rattle.{name}." for name in sorted(os.listdir("crates"))) if os.path.isdir("crates") else ()
DEFINED = re.compile(rf"^\s*(?:(?:abbrev|unfoldable|data|record|pub)\s+)*({WORD})\b", re.M)
QUOTED = re.compile(r'"[^"\n]*"')


def humped(name):
    return any(re.match(r"[a-z][a-z0-9]*[A-Z]", part) for part in name.split("-"))


def respelled(name):
    return "-".join(snake(part) if part[:1].islower() else part for part in name.split("-"))


def module_of(path):
    path = path.split("crates/", 1)[1]
    crate, rest = path.split("/", 1)
    return "Rattle." + crate + "." + rest.removesuffix(".antt").replace("/", ".")


def read(path):
    with open(path, encoding="utf-8") as file:
        return file.read()


def imports(text):
    """For each import of a file: whether it is passed on, the module, its name here, and the pairs of a name there and here."""
    for match in USE.finditer(text):
        names = []
        for item in (match.group(4) or "").split(","):
            words = item.split()
            if words:
                names.append((words[0], words[2] if len(words) == 3 else words[0]))
        whole = match.group(3) or (match.group(2).rsplit(".", 1)[1] if match.group(4) is None and "." in match.group(2) else None)
        yield bool(match.group(1)), match.group(2), whole, names


def passed_on(modules):
    """The constants that each module passes on, its own and those of a 'pub use'."""
    given = {name: dict(constants) for name, constants in CONSTANTS.items()}
    for _ in range(4):
        for name, text in modules.items():
            for public, source, _, names in imports(text):
                if public:
                    for there, here in names:
                        if there in given.get(source, {}) and there == here:
                            given.setdefault(name, {})[here] = given[source][there]
    return given


def known_here(module, text, given):
    """The constants in scope of a file, bare and behind a module's name."""
    bare = dict(CONSTANTS.get(module, {}))
    behind = {}
    for _, source, whole, names in imports(text):
        constants = given.get(source, {})
        if whole:
            behind[whole] = constants
        for there, here in names:
            if there in constants and here == there:
                bare[there] = constants[there]
    return bare, behind


def comment_start(line, mark):
    at = line.find(mark)
    return len(line) if at < 0 else at


def turn_code(code, bare, behind, clashes={}):
    def one(match):
        token, before = match.group(0), code[:match.start()]
        owner = re.search(rf"({WORD})\.$", before)
        if owner and owner.group(1) in behind and token in behind[owner.group(1)]:
            return behind[owner.group(1)][token]
        if token in bare and not before.endswith("."):
            return bare[token]
        if token in clashes:
            return clashes[token]
        return respelled(token) if humped(token) else token
    return TOKEN.sub(one, code)


def turned(match):
    return respelled(match.group(0)) if humped(match.group(0)) else match.group(0)


def turn_import(line, given):
    """An import: each name that its module gives."""
    match = USE.match(line)
    if not match or match.group(4) is None:
        return None
    constants = given.get(match.group(2), {}) | CLASHES.get(match.group(2), {})
    def one(item):
        words = item.group(0).split()
        words[0] = constants.get(words[0]) or TOKEN.sub(turned, words[0])
        return " ".join(words[:2] + [TOKEN.sub(turned, word) for word in words[2:]])
    start, end = match.span(4)
    return line[:start] + re.sub(r"[^,\s][^,]*", one, line[start:end]) + line[end:]


def turn_comment(comment, words):
    kept = []
    def keep(match):
        kept.append(match.group(0))
        return f"\0{len(kept) - 1}\0"
    comment = QUOTED.sub(keep, comment)
    comment = TOKEN.sub(lambda m: respelled(m.group(0)) if m.group(0) in words else m.group(0), comment)
    return re.sub("\0(\\d+)\0", lambda m: kept[int(m.group(1))], comment)


def turn_antt(text, module, given, words):
    bare, behind = known_here(module, text, given)
    clashes = CLASHES.get(module, {})
    out = []
    for line in text.split("\n"):
        at = comment_start(line, "--")
        code, comment = line[:at], line[at:]
        out.append((turn_import(code, given) or turn_code(code, bare, behind, clashes)) + turn_comment(comment, words))
    return "\n".join(out)


def clauses(text):
    """The parts of a source file that only contracts and proofs see, as pairs of offsets."""
    for match in re.finditer(r"^\s*(?:requires|ensures|ghost)\*?(?: \w+\*?:?)? *\{", text, re.M):
        depth, at = 1, match.end()
        while depth:
            depth += {"{": 1, "}": -1}.get(text[at], 0)
            at += 1
        yield match.end(), at - 1


def turn_source(text, given, words):
    bare, behind = known_here("", text, given)
    out, last = [], 0
    for start, end in clauses(text):
        out += [text[last:start], turn_code(text[start:end], bare, behind)]
        last = end
    lines = []
    for line in "".join(out + [text[last:]]).split("\n"):
        at = comment_start(line, "//")
        code, comment = line[:at], line[at:]
        if code.lstrip().startswith(("ghost use", "pub ghost use")):
            code = turn_import(code, given) or code
        lines.append(code + turn_comment(comment, words))
    return "\n".join(lines)


def turn_edit(text, crate, given, sources):
    """An edit changes a file of its crate, so its lines are read in that file's scope."""
    match = re.search(r"^file: (\S+)", text, re.M)
    path = f"crates/{crate}/{match.group(1)}"
    bare, behind = known_here(module_of(path) if path.endswith(".antt") else "", sources.get(path, ""), given)
    lines = []
    for line in text.split("\n"):
        head, _, rest = line.partition(": ")
        code = head in ("old", "new") and (path.endswith(".antt") or any(word in rest for word in ("ensures", "requires", "≡", "λ", "⌜")))
        lines.append(head + ": " + turn_code(rest, bare, behind) if code else line)
    return "\n".join(lines)


def dashed(sources):
    """The names of this repository's definitions, fields and lemmas whose words a dash joins, and their names in snake case. A name keeps
    its dash where the other one is taken, as hub-attach beside hub_attach, or where a part is a type's name; so do the kit's names and those
    that the check makes."""
    defined, taken, kept = set(), set(), set()
    for path, text in sources.items():
        own = "/specs/" in path or re.fullmatch(r"crates/\w+/proofs/\w+\.antt", path)
        for line in text.split("\n"):
            code = line[:comment_start(line, "--")]
            taken.update(NAME.findall(code))
            match = USE.match(code.strip()) if "use " in code else None
            if match:
                if match.group(4) and not match.group(2).startswith(OWN):
                    kept.update(NAME.findall(match.group(4)))
                continue
            match = MADE.match(code)
            if match:
                kept.add(match.group(1))
                continue
            match = STATED.match(code)
            if match and own and re.fullmatch(r"[a-z][a-z0-9_]*(-[a-z0-9_]+)+'*", match.group(1)):
                defined.add(match.group(1))
    return {name: name.replace("-", "_") for name in defined - kept if name.replace("-", "_") not in taken}


def undash(text, names):
    """The text with these names; what stands behind `c.` and the like is a name that the check made."""
    def one(match):
        token, before = match.group(0), text[:match.start()]
        if token not in names or re.search(r"(?:^|[\s(){}\[\],;.])(?:c|w|l|goal|initial)\.$", before[-12:]):
            return token
        return names[token]
    return NAME.sub(one, text)


def main():
    antt = sorted(glob.glob("crates/*/specs/**/*.antt", recursive=True) + glob.glob("crates/*/proofs/**/*.antt", recursive=True))
    rust = sorted(glob.glob("crates/*/src/**/*.rt", recursive=True))
    edits = sorted(glob.glob("crates/*/must-fail/*.edit"))
    if not antt:
        sys.exit("no crates here")
    sources = {path: read(path) for path in antt + rust}
    modules = {module_of(path): sources[path] for path in antt}
    given = passed_on(modules)
    words = {name for text in modules.values() for name in DEFINED.findall(text) if humped(name)}
    turned = {path: turn_antt(sources[path], module_of(path), given, words) for path in antt}
    turned |= {path: turn_source(sources[path], given, words) for path in rust}
    turned |= {path: turn_edit(read(path), path.split("/")[1], given, sources) for path in edits}
    if sys.argv[1:] == ["--dashes"]:
        turned = {path: read(path) for path in antt + rust + edits}
    names = dashed({path: text for path, text in turned.items() if path.endswith(".antt")})
    turned = {path: undash(text, names) for path, text in turned.items()}
    changed = 0
    for path, text in turned.items():
        if text != read(path):
            changed += 1
            with open(path, "w", encoding="utf-8") as file:
                file.write(text)
    print(f"{changed} files respelled")


if __name__ == "__main__":
    main()
