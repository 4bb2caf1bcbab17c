"""Makes the locale records of mf2d from the data of CLDR."""
import json

from cldr import CldrError

DIRECTIONS = {"left-to-right": "ltr", "right-to-left": "rtl"}

# The longest symbol, in bytes, and the greatest number of digits that a record may have.
LONGEST_SYMBOL = 16
MOST_DIGITS = 9


def tag_of(name):
    """The tag of a locale, in lower case as mf2d keeps it: `pt-br` of `pt_BR`, `und` of `root`."""
    return "und" if name == "root" else name.replace("_", "-").lower()


def locale_line(data, name):
    """The line that publishes the record of a locale."""
    request = {"op": "locale", "tag": tag_of(name), "record": record(data, name)}
    return json.dumps(request, separators=(",", ":"))


def record(data, name):
    """The record of a locale. Raises CldrError where the data has none that mf2d accepts."""
    fields = data.fields(name)
    try:
        primary, secondary = group_sizes(fields["pattern"])
        made = {
            "version": 1,
            "dir": DIRECTIONS[fields["order"]],
            "decimal": fields["decimal"],
            "group": fields["group"] if primary else "",
            "minus": fields["minus"],
            "plus": fields["plus"],
            "primary": primary or 3,
            "secondary": secondary or 3,
            "minGroup": int(fields["minimum"]),
            "plural": rules_text(data.rules("cardinal", name)),
            "ordinal": rules_text(data.rules("ordinal", name)),
        }
    except (KeyError, ValueError) as error:
        raise CldrError(f"the data of {name} is missing or no such value: {error}") from None
    check_ranges(name, made)
    return made


def group_sizes(pattern):
    """How many digits the group before the fraction has, and each further one: 3 and 2 of
    `#,##,##0.###`, and 0 and 0 where there are no groups. Raises ValueError at another pattern.
    """
    whole = pattern.partition(";")[0].partition(".")[0]
    if not whole or set(whole) - set("#0,"):
        raise ValueError(f"the pattern {pattern!r}")
    groups = [len(group) for group in whole.split(",")[1:]]
    if not groups:
        return 0, 0
    return groups[-1], groups[-2] if len(groups) > 1 else groups[-1]


def rules_text(rules):
    """Plural rules as a record has them, without samples; `other` is what no rule says."""
    return "; ".join(f"{rule.category}: {rule.condition}" for rule in rules if rule.condition)


def check_ranges(name, made):
    """Raises CldrError where a field is out of the range that mf2d gives it."""
    for field in ("decimal", "group", "minus", "plus"):
        size = len(made[field].encode())
        if size > LONGEST_SYMBOL or (size == 0 and field != "group"):
            raise CldrError(f"the data of {name} has a symbol that no record has: {field}")
    for field in ("primary", "secondary", "minGroup"):
        if not 1 <= made[field] <= MOST_DIGITS:
            raise CldrError(f"the data of {name} has a size that no record has: {field}")
