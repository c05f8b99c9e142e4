"""What a function's proof may cite. A need is asked at a place in the function; the facts known there are reached by `c .before … .fact`,
as many `.before`s as the fact lies back. Both readers below give, for each need in order, how far back each fact of that name lies."""
import re

FACT = r"@([A-Za-z0-9-]+)"


def in_goals(path):
    """Read from the function's Lts file, which `rt goals` writes: every need, every fact in reach, the nearest of each name."""
    records, needs = {}, {}
    lines = open(path).read().split("\n")
    at = 0
    while at < len(lines):
        record = re.match(r"\s*pub record (\S+) : Type 0 where", lines[at])
        if record and not record.group(1).endswith("·own"):
            fields, before = [], None
            at += 1
            while at < len(lines) and lines[at].strip().startswith("pub ") and "record" not in lines[at]:
                field = re.match(r"\s*pub (\S+) : ?(.*)", lines[at])
                if field.group(1) == "before":
                    before = field.group(2).strip()
                else:
                    fields.append(field.group(1))
                at += 1
                while at < len(lines) and lines[at].strip() and not lines[at].strip().startswith("pub "):
                    at += 1
            records[record.group(1)] = (before, fields)
            continue
        need = re.match(r"\s*Need-(\S+) =(.*)", lines[at])
        if need:
            text = need.group(2) + " " + " ".join(line.strip() for line in lines[at + 1:at + 3])
            place = re.search(r"\(c : (\S+?)\)", text)
            if place:
                needs[need.group(1)] = place.group(1)
        at += 1
    return {need: _reach(records, place) for need, place in needs.items()}


def _reach(records, place):
    found, back = {}, 0
    while place and place in records:
        before, fields = records[place]
        for field in fields:
            found.setdefault(field, back)
        place, back = before, back + 1
    return found


def in_proof(path):
    """Read from a proof that was made already: its needs, and the facts that it cites."""
    needs = {}
    for block in open(path).read().split("\n\n"):
        need = re.search(r"^(\S+)(?: t)? c(?: κs)? = ((?:.|\n)*)", block, re.M)
        if need and not need.group(1).startswith(("Inv-", "μ-")):
            cited = needs.setdefault(need.group(1), {})
            for befores, fact in re.findall(r"(?<![\w-])c((?: \.before)*) \.([A-Za-z0-9-]+)", need.group(2)):
                cited.setdefault(fact, befores.count(".before"))
    return needs


def path_to(near, fact, who):
    """`c .before … .fact`, or an error that says what is in reach."""
    if fact not in near:
        raise SystemExit(f"{who}: no @{fact} among {near}")
    return "c" + " .before" * near[fact] + " ." + fact
