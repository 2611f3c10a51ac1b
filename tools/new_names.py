#!/usr/bin/env python3
"""Gives crates, modules and laws the names that they have now, in files that still have the old ones: new_names.py FOLDER [CRATE]

Every text file below the folder is rewritten in place, and folders `crates/OLD` and `edits/OLD` become those of the new name. Files that lie in a crate's
folder have its own short names changed too (`crate::laws::`); with CRATE all files of FOLDER count as that crate's, as patches do. Lists of
modules (`lib.rt`, `Lib.antt`) of crates that were joined are left to whoever brings the files in: they are written as `lib.OLD.rt`, `Lib.OLD.antt`.
"""

import os
import re
import shutil
import sys

# The new name of each crate, and the crates that it was made of.
CRATES = {
    "cmm_static_semantics": ["cmm_accepted"],
    "cmm_elaboration": ["cmm_meaning"],
    "cmm_symbols": ["cmm_names"],
    "cmm_typing": ["cmm_typing", "cmm_wanted"],
    "cmm_unit_scope": ["cmm_typedefs", "cmm_dependencies", "cmm_constants"],
    "cmm_proc_scope": ["cmm_scopes"],
    "cmm_linkage": ["cmm_linked"],
    "cmm_check_procedure": ["cmm_statements", "cmm_switches", "cmm_calling"],
    "cmm_check_declarations": ["cmm_declarations"],
    "cmm_lower_parts": ["cmm_resolving"],
    "cmm_lower": ["cmm_bodies", "cmm_resolved_units"],
    "cmm_machine_laws": ["cmm_laws"],
    "cmm_allocate": ["cmm_places"],
    "cmm_effects": ["cmm_changes"],
    "cmm_emit": ["cmm_nodes", "cmm_text"],
    "cmm_emit_laws": ["cmm_shown", "cmm_served", "cmm_coded"],
    "cmm_image_machine": ["cmm_execution"],
    "cmm_simulation": ["cmm_following"],
    "cmm_digraph": ["cmm_peeling", "cmm_cycles"],
    "cmm_grammar": ["cmm_readers"],
    "front_rows": ["cmm_trees", "cmm_faults", "cmm_resolved", "parser_rows", "static_rows", "typing_rows"],
    "value_tests": ["command_tests", "middle_tests", "run_tests"],
    "part_rows": ["code_tests", "code_rows", "walk_rows"],
}
NEW = {old: new for new, olds in CRATES.items() for old in olds}
JOINED = {old: new for new, olds in CRATES.items() if len(olds) > 1 for old in olds}

# Modules that have another name in a joined crate: of sources, definitions and proofs.
SOURCES = {
    "cmm_typedefs": {"graph": "typedef_graph"},
    "cmm_dependencies": {"graph": "dependency_graph"},
    "cmm_nodes": {"laying": "node_code"},
    "cmm_text": {"laying": "procedure_code"},
    "cmm_shown": {"laws": "state_laws"},
    "cmm_served": {"laws": "request_laws"},
    "cmm_wanted": {it: f"expected::{it}" for it in ("alignments", "alone", "hosts", "inner", "judgements", "literal", "noting", "parts")},
}
DEFINITIONS = {
    "cmm_nodes": {"Laying": "LaidNodes"},
    "cmm_text": {"Laying": "LaidProcedures"},
    "cmm_shown": {"Laws": "StateLaws", "Shown": "Represented"},
    "cmm_served": {"Laws": "RequestLaws"},
}
PROOFS = {
    "cmm_statements": {"Switched": "StatementFaults"},
    "cmm_bodies": {"Accepted": "AcceptedProcedures", "Whole": "WholeProcedures"},
    "cmm_resolved_units": {"Accepted": "AcceptedUnits"},
    "cmm_nodes": {"Waiting": "WaitingSites", "Labels": "NodeLabels"},
    "cmm_text": {"Waiting": "WaitingNodes"},
    "cmm_shown": {"Starting": "StartingStates"},
    "cmm_served": {"Simulating": "SimulatedMachines"},
    "cmm_peeling": {"Rows": "PeeledRows"},
    "cmm_cycles": {"Rows": "CycleRows"},
}
SHARED = {
    "cmm_typedefs": "SharedTypedefs", "cmm_dependencies": "SharedDependencies", "cmm_bodies": "SharedProcedures", "cmm_resolved_units": "SharedUnits",
    "cmm_shown": "SharedStates", "cmm_served": "SharedRequests", "cmm_coded": "SharedCode", "cmm_switches": "Shared", "cmm_peeling": "Shared",
}

# Laws and their definitions.
WORDS = {
    "flows_do_what_programs_do": "graphs_simulate_programs",
    "flows_do_so_at_costs": "graphs_simulate_at_costs",
    "places_simulate": "located_runs_simulate_graphs",
    "PlacesSimulate": "LocatedRunsSimulateGraphs",
    "places_follow": "located_runs_follow_graphs",
    "PlacesFollow": "LocatedRunsFollowGraphs",
    "places_do_what_programs_do": "located_runs_follow_programs",
    "PlacesFollowPrograms": "LocatedRunsFollowPrograms",
    "code_simulates": "images_simulate_located_runs",
    "CodeSimulates": "ImagesSimulateLocatedRuns",
    "code_follows": "images_follow_located_runs",
    "CodeFollows": "ImagesFollowLocatedRuns",
    "images_agree": "images_agree_with_units",
    "ImagesAgree": "ImagesAgreeWithUnits",
    "IsShown": "IsRepresented",
    "IsShownIn": "IsRepresentedIn",
    "IsShownBy": "IsRepresentedBy",
    "ShowsWords": "RepresentsWords",
    "ShowsCell": "RepresentsCell",
    "ShowsCells": "RepresentsCells",
    "ShowsRoom": "RepresentsRoom",
    "ShowsRooms": "RepresentsRooms",
    "ShowsRegisters": "RepresentsRegisters",
    "ShowsValues": "RepresentsValues",
    "ShowsHoldings": "RepresentsHoldings",
}


def modules_renamed(text, here):
    """A text in which modules have their new names: those of all crates by their paths, and those of the crate that it lies in by short names."""
    for crate, names in SOURCES.items():
        for old, new in names.items():
            dotted = new.replace("::", ".")
            text = re.sub(rf"\b{crate}::{old}::", f"{crate}::{new}::", text)
            text = re.sub(rf"\bRattle\.{crate}\.specs\.declared\.{old}\.", f"Rattle.{crate}.specs.declared.{dotted}.", text)
            text = re.sub(rf"\bRattle\.{crate}\.proofs\.{old}\.", f"Rattle.{crate}.proofs.{dotted}.", text)
            if here == crate:
                text = re.sub(rf"\bcrate::{old}::", f"crate::{new}::", text)
                text = re.sub(rf"\bsrc/{old}\.rt\b", f"src/{new.replace('::', '/')}.rt", text)
                text = re.sub(rf"^((?:pub(?:\(crate\))? )?mod ){old};", rf"\g<1>{new.split('::')[-1]};", text, flags=re.M)
                if "::" not in new:
                    text = re.sub(rf"^(pub use ){old}::", rf"\g<1>{new}::", text, flags=re.M)
                    text = re.sub(rf"`{old}`", f"`{new}`", text)
    for kind, table in (("specs", DEFINITIONS), ("proofs", PROOFS)):
        for crate, names in table.items():
            for old, new in names.items():
                text = re.sub(rf"\bRattle\.{crate}\.{kind}\.{old}\.", f"Rattle.{crate}.{kind}.{new}.", text)
                text = re.sub(rf"\bRattle\.{crate}\.{kind}\.{old} ", f"Rattle.{crate}.{kind}.{new} ", text)
                text = re.sub(rf"\b{crate}::{kind}::{old}::", f"{crate}::{kind}::{new}::", text)
                text = re.sub(rf"\bcrates/{crate}/{kind}/{old}\b", f"crates/{crate}/{kind}/{new}", text)
                if here == crate:
                    text = re.sub(rf"\bcrate::{kind}::{old}::", f"crate::{kind}::{new}::", text)
                    text = re.sub(rf"(?<![\w/]){kind}/{old}\b", f"{kind}/{new}", text)
                    text = re.sub(rf"^((?:pub )?mod ){old}$", rf"\g<1>{new}", text, flags=re.M)
    return text


def shared_renamed(text, here):
    """A text in which proofs of a joined crate name the lemmas of its parts by the part, and those of others by the one list."""
    for crate, new in SHARED.items():
        if here in CRATES[NEW[crate]]:
            text = text.replace(f"Rattle.{crate}.proofs.Shared.", f"Rattle.{crate}.proofs.{new}.")
        if here == crate:
            text = re.sub(r"^((?:pub )?mod )Shared$", rf"\g<1>{new}", text, flags=re.M)
    return text


def new_text(text, here=None):
    """A text with the new names, of a file that lies in a crate, if it lies in one."""
    text = shared_renamed(modules_renamed(text, here), here)
    for old, new in NEW.items():
        if old != new:
            text = re.sub(rf"\b{old}\b", new, text)
    for old, new in WORDS.items():
        text = re.sub(rf"\b{old}\b", new, text)
    return text


def new_path(path, crate):
    """Where a file of a crate lies now, from the crate's folder."""
    parts = path.split("/")
    name, _, ending = parts[-1].partition(".")
    if path in ("src/lib.rt", "specs/Lib.antt", "proofs/Lib.antt", "specs/inside.antt") and crate in JOINED:
        return "/".join(parts[:-1] + [f"{name}.{crate}.{ending}"])
    if parts[0] == "src" and len(parts) == 2 and name in SOURCES.get(crate, {}):
        return f"src/{SOURCES[crate][name].replace('::', '/')}.{ending}"
    if parts[0] == "proofs" and len(parts) > 2 and parts[1] in SOURCES.get(crate, {}):
        parts[1] = SOURCES[crate][parts[1]].replace("::", "/")
    elif len(parts) == 2 and ending == "antt":
        table = {"specs": DEFINITIONS, "proofs": PROOFS}.get(parts[0], {})
        name = table.get(crate, {}).get(name, name)
        if path == "proofs/Shared.antt" and crate in SHARED:
            name = SHARED[crate]
        parts[-1] = f"{name}.{ending}"
    return "/".join(WORDS.get(it, it) for it in parts)


def texts_below(folder):
    for at, folders, files in os.walk(folder):
        folders[:] = sorted(it for it in folders if it not in ("out", ".git", "__pycache__"))
        for name in sorted(files):
            path = os.path.join(at, name)
            try:
                with open(path, encoding="utf-8") as file:
                    yield path, file.read()
            except UnicodeDecodeError:
                continue


def rewrite(path, text, new):
    if new != text:
        with open(path, "w", encoding="utf-8") as file:
            file.write(new)


def crate_of(path, top):
    parts = os.path.relpath(path, top).split("/")
    for at, part in enumerate(parts[:-1]):
        if part in ("crates", "edits") and len(parts) > at + 2:
            return parts[at + 1]
    return None


def main(top, crate=None):
    own = os.path.abspath(__file__)
    for path, text in list(texts_below(top)):
        if os.path.abspath(path) != own:
            rewrite(path, text, new_text(text, crate or crate_of(path, top)))
    for at, folders, _ in os.walk(top):
        folders[:] = [it for it in folders if it not in ("out", ".git")]
        if os.path.basename(at) not in ("crates", "edits"):
            continue
        for old in list(folders):
            moved = [(os.path.relpath(p, f"{at}/{old}"), p) for p, _ in texts_below(f"{at}/{old}")]
            for short, path in moved:
                to = f"{at}/{NEW.get(old, old)}/{new_path(short, old)}"
                if to != path:
                    os.makedirs(os.path.dirname(to), exist_ok=True)
                    assert not os.path.exists(to), (path, to)
                    os.rename(path, to)
            if NEW.get(old, old) != old:
                shutil.rmtree(f"{at}/{old}")
        folders[:] = []


if __name__ == "__main__":
    main(*sys.argv[1:])
