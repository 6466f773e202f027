"""The places in the texts of rules that the sorts of tools/tables/packed_kinds.py have."""
import packed_rules

# the roles of rules in lists, and what is after the item
ITEMS = {"before": "$", "first": "$", "last": ""}
ENDS = ["end", "none"]


def code(sorts, place):
    """The places in the text of a rule that a place of a node is."""
    sort = sorts[place["sort"]]
    if "text" in sort or "words" in sort:
        return "#"
    if "forms" in sort and "rule" not in sort["forms"][0]:
        return codes(sorts, sort["forms"][0]["places"])
    return "%$" if place.get("spanned") else "$"


def codes(sorts, places):
    return "".join(code(sorts, it) for it in places)


def of_list(sorts, sort):
    """The rules of a list, with the places that their texts have to have."""
    item = code(sorts, sort["list"])
    wanted = {role: item + rest for role, rest in ITEMS.items()}
    wanted |= {"void": "%$", **dict.fromkeys(ENDS, "")}
    return [(sort[role], places) for role, places in wanted.items() if role in sort]


def of_sort(sorts, sort):
    """The rules that a sort names, with the places that their texts have to have."""
    for form in sort.get("forms", []):
        around = ("%", "$") if "left" in form else ("", "")
        if "rule" in form:
            yield form["rule"], codes(sorts, form["places"]).join(around)
    for it in sort.get("any", []):
        if "before" in it:
            yield it["before"], "$"
    if "list" in sort:
        yield from of_list(sorts, sort)
    if "option" in sort:
        yield sort["rule"], code(sorts, sort["option"])
    if "group" in sort:
        yield sort["rule"], codes(sorts, sort["group"])
    if "chain" in sort:
        yield sort["chain"], "$$"
    if "nothing" in sort:
        yield sort["nothing"], ""


def check(sorts, rules):
    """Fails if a rule has other places than those of what it is of, or is of nothing."""
    uses = [use for sort in sorts.values() for use in of_sort(sorts, sort)]
    for rule, places in uses:
        if packed_rules.places(rules[rule].text) != places:
            raise SystemExit(f"The rule {rule} has other places than {places!r}")
    if unused := set(rules) - {rule for rule, _ in uses}:
        raise SystemExit(f"No kind has the rules {', '.join(sorted(unused))}")
