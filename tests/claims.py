"""The computed claims of the machine, evaluated on its own text without a proof: the fields `x : A ≡ B` of the records in FILES.

  claims.py --stored        every claim holds; and each edit of tests/tried/machine and of the gate's own for the machine
                            (crates/machine/must-fail), applied to the text, breaks one. Prints which
  claims.py --hold          the claims alone; of one that does not hold, both sides
  claims.py EDIT ..         the claims and these edits

Of an edit that a crate other than the machine must refuse (`refused by:`, tests/tried.py) no claim of the machine's own crate may
break, since that crate is proved with it.
"""
import itertools
import multiprocessing
import pathlib
import sys

from cases import ROOT
from machine.translate import Module, Translation, files_of
from machines import deeply
from tried import Edit, edits

CRATES = ROOT / "crates"
FILES = [*files_of(CRATES / "machine" / "specs"), *files_of(CRATES / "machine_cases" / "specs"),
         CRATES / "write_message" / "specs" / "Listing.antt", CRATES / "write_message" / "specs" / "Message.antt",
         CRATES / "write_laws" / "specs" / "Spelled.antt"]
EDITED = "machine"
SHOWN = 5


class Claim:
    """Two sides that must come to the same, and the definitions that this took."""

    def __init__(self, crate, module, name, sides):
        self.crate, self.module, self.name, self.sides, self.used = crate, module, f"{module}.{name}", sides, set()

    def values(self, translation):
        return [translation.value(self.module, side) for side in self.sides]

    def holds(self, translation):
        left, right = self.values(translation)
        return left == right


class Claims:
    def __init__(self, files=FILES):
        self.files = {f"crates/{path.relative_to(CRATES)}": path for path in files}
        self.text = {place: path.read_text() for place, path in self.files.items()}
        self.translation = Translation(files)
        self.claims = [claim for module, found in self.translation.modules.items() for claim in self.of(module, found)]

    def of(self, module, found):
        for name, left, right in found.claims:
            if right is not None:
                yield Claim(found.crate, module, name, (left, right))
                continue
            for place in range(len(self.translation.value(module, left))):
                row = "apply", ("name", "get_or"), [left, ("literal", place), ("literal", None)]
                yield Claim(found.crate, module, f"{name}-{place}", (("field", row, "computed"), ("field", row, "said")))

    def broken(self):
        """Evaluates all, noting what each uses."""
        failing = []
        for claim in self.claims:
            self.translation.seen.clear()
            if not claim.holds(self.translation):
                failing.append(claim)
            claim.used = set(self.translation.seen)
        return failing

    def broken_by(self, changes):
        """The claims that no longer hold with these changes (file, old text, new text); None where they are of other files."""
        texts = {}
        for place, old, new in changes:
            if place not in self.text:
                return None
            texts[place] = texts.get(place, self.text[place]).replace(old, new)
        return self.broken_with({path.stem: Module(path.parent.parent.name, texts[place]) for place, path in self.files.items() if place in texts})

    def broken_with(self, modules, first=False):
        """The claims that no longer hold with other modules, or the first of them; of the others nothing that they use has changed."""
        try:
            changed = self.translation.change(modules)
            failing = (claim for claim in self.claims if claim.used & changed and not claim.holds(self.translation))
            return list(itertools.islice(failing, 1 if first else None))
        finally:
            self.translation.restore()


def verdict(edit):
    """What is said of an edit, and whether it is as it must be."""
    fault = edit.fault()
    if fault:
        return f"{edit.name}: {fault}", False
    try:
        broken = ALL.broken_by(edit.changes)
    except Exception as error:
        return f"{edit.name}: cannot be evaluated: {error!r}", False
    if broken is None:
        return f"{edit.name}: of other files, left to tests/tried.py", True
    crates = {claim.crate for claim in broken}
    if not broken:
        return f"{edit.name}: BREAKS NO CLAIM", False
    if edit.refuser != EDITED and EDITED in crates:
        return f"{edit.name}: refused by {EDITED} already, not first by {edit.refuser}", False
    if edit.refuser == EDITED and EDITED not in crates:
        return f"{edit.name}: refused by {', '.join(sorted(crates))}, and does not say so", False
    names = [claim.name for claim in broken]
    more = f" and {len(names) - SHOWN} more" if len(names) > SHOWN else ""
    return f"{edit.name}: breaks {', '.join(names[:SHOWN])}{more}", True


def shown(value):
    """A value as text; a list of printable bytes in quotation marks."""
    if isinstance(value, dict):
        return "{" + ", ".join(f"{name} {shown(part)}" for name, part in value.items()) + "}"
    if not isinstance(value, tuple):
        return str(value)
    if len(value) > 3 and all(isinstance(part, int) and (part == 12 or 32 <= part < 127) for part in value):
        return repr("".join(map(chr, value)))
    return f"({', '.join(map(shown, value))})"


def judged(chosen):
    with multiprocessing.get_context("fork").Pool(2) as pool:
        verdicts = list(pool.imap(verdict, chosen, chunksize=1))
    for said, _ in verdicts:
        print(said)
    return sum(not good for _, good in verdicts)


def main(words):
    global ALL
    if not words:
        sys.exit(__doc__)
    ALL = Claims()
    failing = ALL.broken()
    for claim in failing:
        print(f"{claim.name} does not hold:")
        for value in claim.values(ALL.translation):
            print(f"  {shown(value)}")
    if words == ["--stored"]:
        chosen = edits(ROOT / "tests" / "tried", f"{EDITED}/*.edit") + edits(CRATES, f"{EDITED}/must-fail/*.edit")
    else:
        chosen = [Edit(EDITED, pathlib.Path(word)) for word in words if word != "--hold"]
    bad = judged(chosen) if not failing else 0
    print(f"claims: {len(ALL.claims) - len(failing)} hold, {len(failing)} do not; {len(chosen) - bad} edits each break one, {bad} do not")
    if failing or bad:
        sys.exit(1)


if __name__ == "__main__":
    sys.exit(deeply(main, sys.argv[1:]))
