"""The folder of a configuration of Terraform: the documents of which a plan has no text, since only the apply tells a part."""

import os
from typing import Any, Dict, List, NamedTuple, Optional, Tuple

from . import files
from .exports import document
from .faults import Fault
from .hcl import Odd, Reader, Resolve

# What stands in place of parts of other files, in a form that is not read.
OVERRIDING = ("override.tf.json", ".tofu", ".tofu.json")


class Place(NamedTuple):
    """Where an expression begins in a file."""

    path: str
    text: str
    at: int


class Configuration:
    """The files of the folders of modules, each read once."""

    def __init__(self, folder: str):
        self.folder = folder
        self.found: Dict[str, Dict[str, List[Place]]] = {}
        self.odd: List[str] = []
        if not os.path.isdir(folder):
            raise Fault(f"--configuration {folder}: it is no folder")

    def place(self, module: str, name: str) -> Optional[Place]:
        """Where an attribute (kind.name.attribute) stands in a module; None where no file has it, or two do."""
        if module not in self.found:
            self.found[module] = self.read_folder(os.path.join(self.folder, module))
        places = self.found[module].get(name, [])
        return places[0] if len(places) == 1 else None

    def why(self) -> str:
        """Why a document is not read, in words."""
        return ", ".join(self.odd) or "the configuration has no text or call of jsonencode of it that is followed"

    def read_folder(self, folder: str) -> Dict[str, List[Place]]:
        """Where each attribute of each resource stands; nowhere where a file is not followed, which may override others."""
        found: Dict[str, List[Place]] = {}
        self.odd += [f"{it} is not read" for it in files_of(folder, OVERRIDING)]
        for path in files_of(folder):
            text = files.read_text(path)
            reader = Reader(text, 0)
            try:
                for labels in reader.blocks():
                    own = reader.attributes() if labels[:1] == ("resource",) and len(labels) == 3 else {}
                    for name, at in own.items():
                        found.setdefault(".".join([*labels[1:], name]), []).append(Place(path, text, at))
            except Odd:
                line = text.count("\n", 0, reader.at) + 1
                self.odd.append(f"{path} is not followed from line {line} on")
        return {} if self.odd else found

    def document(self, module: str, name: str, references: List[str], resolve: Resolve) -> Any:
        """The document of an attribute with Unclear for what does not follow; None where it is not read. `references` are
        those that the plan has of it, so that another configuration is found out."""
        place = self.place(module, name)
        if place is None:
            return None
        seen: List[str] = []

        def one(reference: str) -> Any:
            seen.append(reference)
            return resolve(reference)

        reader = Reader(place.text, place.at, one)
        try:
            found = reader.document()
        except Odd:
            return None
        written = place.text[place.at : reader.at]
        other = [it for it in seen if it not in references] + [it for it in references if it not in written]
        if other:
            raise Fault(f"{place.path}: {name} is not the one that the plan was made of: one of them has no {other[0]}")
        return document(found, f"{place.path}: {name}") if isinstance(found, str) else found


def files_of(folder: str, ends: Tuple[str, ...] = (".tf",)) -> List[str]:
    """The files of a folder that have a configuration."""
    try:
        return sorted(os.path.join(folder, it) for it in os.listdir(folder) if it.endswith(ends))
    except OSError as error:
        raise Fault(f"{folder}: {error.strerror or error}") from None
