"""Reads the locale data of CLDR, as Debian's package unicode-cldr-core installs it.

Source: Unicode TS 35, Part 1, "Locale Inheritance and Matching" and "Parent Locales"; Part 3,
"Number Elements" and "Language Plural Rules".
"""
import functools
import os
import re
import subprocess
import xml.etree.ElementTree as ElementTree
from collections import ChainMap, namedtuple

PACKAGE = "unicode-cldr-core"
USUAL_FOLDER = "/usr/share/unicode/cldr/common"

# Where the fields of a locale stand in its file; the symbols are those of Latin digits.
PATHS = {
    "order": "layout/orientation/characterOrder",
    "digits": "numbers/defaultNumberingSystem",
    "minimum": "numbers/minimumGroupingDigits",
    "decimal": "numbers/symbols[@numberSystem='latn']/decimal",
    "group": "numbers/symbols[@numberSystem='latn']/group",
    "minus": "numbers/symbols[@numberSystem='latn']/minusSign",
    "plus": "numbers/symbols[@numberSystem='latn']/plusSign",
}

# The formats of numbers in Latin digits. The plain one has no type; others are "long" and "short".
FORMATS = "numbers/decimalFormats[@numberSystem='latn']/decimalFormatLength"
PATTERN = "decimalFormat/pattern"

# What isn't confirmed is passed over, as ICU does, and so is the mark that says "as the parent".
UNCONFIRMED = ("unconfirmed", "provisional")
INHERITED = "↑↑↑"

# The categories of numbers, and the form of the condition of one; `other` has none.
CATEGORIES = ("zero", "one", "two", "few", "many", "other")
VALUES = r"\d+(\.\.\d+)?( ?, ?\d+(\.\.\d+)?)*"
RELATION = rf"[nivwftce]( ?% ?\d+)? ?!?= ?{VALUES}"
CONDITION = re.compile(rf"{RELATION}( (and|or) {RELATION})*")

# A plural rule: its category, its condition (empty for `other`), and its samples as written.
Rule = namedtuple("Rule", "category condition samples")


class CldrError(Exception):
    """The data isn't there, or isn't what it should be. Its text is one line."""


def installed_folder():
    """The folder `common` of the package, wherever it is. Raises CldrError where there is none."""
    for folder in [*folders_of_package(), USUAL_FOLDER]:
        if os.path.isfile(os.path.join(folder, "main", "root.xml")):
            return folder
    raise CldrError(f"there is no CLDR data: install Debian's package {PACKAGE}, or give --cldr")


def folders_of_package():
    """The folders that hold a file main/root.xml of the package, by dpkg, where there is one."""
    query = ["dpkg-query", "--listfiles", PACKAGE]
    try:
        listed = subprocess.run(query, capture_output=True, text=True, check=False)
    except OSError:
        return []
    end = "/main/root.xml"
    return [path[: -len(end)] for path in listed.stdout.splitlines() if path.endswith(end)]


class Cldr:
    """The data of one folder `common`.

    A locale is named as its file is, `pt_BR`; its tag is `pt-br`. Each call raises CldrError where
    a file that it reads is missing or broken.
    """

    def __init__(self, folder):
        self.folder = folder

    @functools.cached_property
    def version(self):
        """The version of CLDR, as "41"."""
        path = self.path("dtd", "ldml.dtd")
        try:
            with open(path, encoding="utf-8") as dtd:
                found = re.search(r'cldrVersion CDATA #FIXED "([^"]+)"', dtd.read())
        except (OSError, UnicodeDecodeError) as error:
            raise CldrError(f"{path}: {reason(error)}") from None
        if not found:
            raise CldrError(f"{path}: it names no version of CLDR")
        return found.group(1)

    @functools.cached_property
    def names(self):
        """The names of all locales that have a file, in order."""
        try:
            files = os.listdir(self.path("main"))
        except OSError as error:
            raise CldrError(f"{self.path('main')}: {reason(error)}") from None
        return sorted(file[: -len(".xml")] for file in files if file.endswith(".xml"))

    def fields(self, name):
        """The fields of PATHS, and "pattern", of a locale: its own before those of its parents."""
        return ChainMap(*map(self.own_fields, up_to_root(name, self.parent)))

    def rules(self, kind, name):
        """The rules of a locale, of the kind "cardinal" or "ordinal", in their order."""
        rules = self.all_rules[kind]
        names = up_to_root(name, self.rule_parent)
        return next((rules[each] for each in names if each in rules), [])

    def parent(self, name):
        """The parent of a locale: the one that is said, else the locale without its last subtag."""
        return self.said_parents.get(name) or shorter(name)

    def rule_parent(self, name):
        """The locale whose plural rules serve one that has none: a parent of the same language.

        A parent of another language, or root, says nothing of the language's plurals; there the
        last subtag is dropped: `sr_Latn` counts as `sr` does, and `hi_Latn` as `hi`, whatever their
        symbols are inherited from.
        """
        parent = self.parent(name)
        return parent if language(parent) == language(name) else shorter(name)

    @functools.cached_property
    def said_parents(self):
        """The parents that supplementalData.xml says, but for those of one component alone."""
        rows = self.tree("supplemental", "supplementalData.xml").findall("parentLocales")
        return {
            name: row.get("parent")
            for table in rows
            if table.get("component") is None
            for row in table
            for name in row.get("locales", "").split()
        }

    @functools.cached_property
    def all_rules(self):
        """For each kind the rules of each locale that they name."""
        files = {"cardinal": "plurals.xml", "ordinal": "ordinals.xml"}
        return {kind: self.rules_of_file(file) for kind, file in files.items()}

    def rules_of_file(self, file):
        """The rules of each locale that a file of supplemental/ names."""
        rules = {}
        for group in self.tree("supplemental", file).findall("plurals/pluralRules"):
            of_group = [self.rule(file, row) for row in group.findall("pluralRule")]
            rules.update(dict.fromkeys(group.get("locales", "").split(), of_group))
        if not rules:
            raise CldrError(f"{self.path('supplemental', file)}: it has no plural rules")
        return rules

    def rule(self, file, row):
        """The rule of an element."""
        condition, at, samples = (row.text or "").partition("@")
        rule = Rule(row.get("count"), " ".join(condition.split()), at + samples)
        if not is_rule(rule):
            path = self.path("supplemental", file)
            raise CldrError(f"{path}: no plural rule: {rule.category}: {rule.condition}")
        return rule

    @functools.lru_cache(maxsize=None)
    def own_fields(self, name):
        """The fields that stand in a locale's own file; none where it has no file."""
        if name not in self.names:
            return {}
        tree = self.tree("main", f"{name}.xml")
        found = {field: first_text(tree.findall(path)) for field, path in PATHS.items()}
        plain = [length for length in tree.findall(FORMATS) if length.get("type") is None]
        found["pattern"] = first_text(one for length in plain for one in length.findall(PATTERN))
        return {field: text for field, text in found.items() if text is not None}

    def tree(self, *words):
        """The element at the top of a file."""
        path = self.path(*words)
        try:
            return ElementTree.parse(path).getroot()
        except (OSError, ElementTree.ParseError, ValueError, LookupError) as error:
            raise CldrError(f"{path}: {reason(error)}") from None

    def path(self, *words):
        """The path of a file."""
        return os.path.join(self.folder, *words)


def up_to_root(name, parent):
    """A locale, its parent, and so on up to root. Raises CldrError where they go in a circle."""
    names = []
    while name != "root":
        if name in names:
            raise CldrError(f"the parents of {name} lead back to it")
        names.append(name)
        name = parent(name)
    return [*names, "root"]


def is_rule(rule):
    """Whether a rule has a category, and the condition that is due to it."""
    if rule.category == "other":
        return rule.condition == ""
    return rule.category in CATEGORIES and CONDITION.fullmatch(rule.condition) is not None


def first_text(elements):
    """The text of the first element that is confirmed and isn't inherited; None without one."""
    for element in elements:
        confirmed = element.get("draft") not in UNCONFIRMED
        if confirmed and element.get("alt") is None and element.text != INHERITED:
            return element.text or ""
    return None


def shorter(name):
    """A name without its last subtag; root, where it has one alone."""
    return name.rpartition("_")[0] or "root"


def language(name):
    """The language of a name."""
    return name.partition("_")[0]


def reason(error):
    """What went wrong, on one line."""
    return " ".join((getattr(error, "strerror", None) or str(error)).split())
