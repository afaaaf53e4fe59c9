"""The names of features, by the names that C files use."""
from __future__ import annotations

from .formulas import Feature
from .limits import is_allowed
from .meaning import Meaning


class Names:
    """The names of features: those that the files use, and for other symbols the first prefix that the files use."""

    def __init__(self, meaning: Meaning, prefixes: list[str]):
        self.meaning = meaning
        self.prefixes = prefixes
        self.prefix = ""
        self.used: dict[Feature, list[str]] = {}
        self.features: dict[str, Feature] = {}

    def symbol(self, name: str):
        found = self.meaning.kconfig.syms.get(name)
        return found if found is not None and found.nodes and found.orig_type else None

    def take(self, name: str) -> Feature | None:
        """The feature that a name of a file stands for, which is noted."""
        for prefix in [prefix for prefix in self.prefixes if name.startswith(prefix) and is_allowed(name)]:
            word, base = name[len(prefix):], name[len(prefix):].removesuffix("_MODULE")
            if self.symbol(word):
                self.note(name, prefix, (word, False))
            elif base != word and self.symbol(base) and self.meaning.is_tristate(self.symbol(base)):
                self.note(name, prefix, (base, True))
        return self.features.get(name)

    def note(self, name: str, prefix: str, feature: Feature) -> None:
        if name not in self.features:
            self.features[name] = feature
            self.used.setdefault(feature, []).append(name)
            self.prefix = self.prefix or prefix

    def of(self, feature: Feature) -> str:
        """The name of a feature; of several that the files use the first."""
        if feature in self.used:
            return self.used[feature][0]
        name = feature[0] + ("_MODULE" if feature[1] else "")
        if self.prefix + name in self.features or not is_allowed(self.prefix + name):
            return "CONFIG_" + name
        return self.prefix + name
