"""The proofs of the kernels, for crates/kernel_levels/make.

The check proves most of what a kernel owes. What it does not find alone is what its list holds after the calls of a turn: `Proof`
writes it down as facts, one or two for each call, each by a law of kernel_levels from those before it. An answer is the facts that
stand before its goal, and then what follows from them.
"""
import re

# which parameter of a step it writes to
WRITES = {"deal": "a", "take": "a", "some": "out", "lift": "e", "butterfly": "out", "mirror": "out", "put": "m", "round": "r", "strip": "b", "spread": "r"}


def numbered(name, count, dash="-"):
    return name if count == 1 else f"{name}{dash}{count}"


def nested(terms, join):
    """(a join (b join c)) of a, b, c"""
    return terms[0] if len(terms) == 1 else f"({terms[0]}{join}{nested(terms[1:], join)})"


class Proof:
    def __init__(self, kernel):
        self.kernel, self.down = kernel, kernel.direction == "down"
        self.counter = "x" if self.down else "l"
        self.loop = f"c.loop-{self.counter}"
        self.turn = f"{self.loop}.{self.counter}"  # the turns made so far
        self.facts, self.answers, self.seen = [], [], {}
        self.held = {}  # list -> the fact that says what it holds
        self.levels = 0  # with a product, so far
        self.long = "c.requires.1.0" if kernel.turns == "many" else "c.requires.1"  # how long the list is that the kernel writes to

    # ---- names, facts and answers

    def again(self, name, inside=True):
        """what comes again in the loop has the loop's name and then counts"""
        self.seen[name] = self.seen.get(name, 0) + 1
        if self.seen[name] == 1:
            return name
        return numbered(f"{name}-in-loop-{self.counter}", self.seen[name] - 1) if inside else numbered(name, self.seen[name])

    def call(self, function, inside=True):
        """the next call of a step, and the list that it wrote to"""
        step = self.again(function, inside)
        return f"c.{step}", f"c.{step}.new.{WRITES[function]}", self.again(f"{function}-requires", inside)

    def fact(self, name, states, shown, array=None):
        self.facts.append(f"    let {name} : {states} = {shown} in\n")
        if array:
            self.held[array] = name

    def answer(self, goal, term, facts=None):
        self.answers.append(f"pub {goal} : goal.{goal}\n{goal} c =\n{''.join(self.facts if facts is None else facts)}    {term}\n")

    def given(self):
        self.fact("taken", f"{self.turn} < {self.kernel.count}", "omega (arith, c.requires.1.1)" if self.kernel.turns == "many" else "omega arith")

    def half(self):
        """what is added before the shift, as the code reads it"""
        self.fact("half", "ℤ", "to_z w32 (of_z w32 c.args.half)")
        self.fact("half-is", "half ≡ c.args.half", "to_z-of_z w32 c.args.half c.ranges.half")

    # ---- levels

    def inputs_of(self, level):
        """the inputs of a level: of the kernel's, every other one for each level above it"""
        above = level.stride.bit_length() - 1
        return "evens (" * above + f"at {self.inputs}" + ")" * above

    def product(self, level):
        """inputs are dealt, and products made of them"""
        step, written, _ = self.call("deal")
        above, inputs = level.stride.bit_length() - 1, self.inputs_of(level)
        place, of = ("i", inputs) if level.lowest else ("2 * i + 1", f"λ i. ({inputs}) (2 * i + 1)")
        place = f"{level.first} + i * {level.step} ≡ {'2 * (' * above}{place}{')' * above}"
        self.fact(f"dealt-{level.points}", f"Dealt {level.live} {2 * level.pairs} ({of}) {written}",
                  f"dealt (omega arith) {step}.ensures (λ i l. let e : {place} = omega arith in ap (at {self.inputs}) e)", level.inputs)
        sums = f"(line_sum {written} 0 2 {level.proved} {2 * level.outputs} {level.pairs})"
        for j, end in level.groups():
            step, written, need = self.call("some")
            if j or level.pairs >= 4 or level.points == 32:  # the check finds the others by itself
                room = f"omega (arith, {self.held[level.products]}.long)" if j else "omega arith"
                self.answer(need, f"(weighed {level.proved}-right {self.held[level.inputs]} {end} (omega arith), (omega arith, {room}))")
            before = f"(made_none {level.outputs} _)" if j == 0 else self.held[level.products]
            self.fact(f"made-{level.points}-{end}", f"Made {end} {level.outputs} {sums} {written}", f"made-next {end} (omega arith) {before} {step}.ensures", level.products)

    def level(self, level):
        if not level.mirrored:
            self.product(level)
            self.levels += 1
        small = "(omega arith)" if self.down else "small"
        if level.lowest:
            step, written, need = self.call("lift")
            live, shown = level.live, f"lowest {small} {level.proved}-right {self.held[level.inputs]} {self.held[level.products]}"
        elif level.mirrored:
            step, written, need = self.call("mirror")
            live, shown = 1, f"mirrored {{x = {self.inputs_of(level)}}} halves-{level.points} (omega arith) {self.held[level.below]}"
        else:
            step, written, need = self.call("butterfly")
            if level.points > 4 or not self.down:  # the check finds the first by itself where half is 64
                self.answer(need, f"(sums-small (omega arith) {self.held[level.below]}, (made-small {self.held[level.products]}, (omega arith, (omega arith, omega arith))))")
            live, shown = 2 * level.live, (f"up {{x = {self.inputs_of(level)}}} halves-{level.points} (omega arith) {level.proved}-right"
                                           f" {self.held[level.inputs]} {self.held[level.below]} {self.held[level.products]}")
        half = "(pos 64)" if self.down else "half"
        self.fact(f"level-{level.points}", f"Sums {level.points} {live} {half} ({self.inputs_of(level)}) {self.levels} {written}", f"{shown} {step}.ensures", level.sums)

    # ---- down: a strip, and tiles

    def strip(self):
        k = self.kernel
        strip, written, _ = self.call("strip")
        step, self.inputs, _ = self.call("deal")
        self.stripped = f"{strip}.ensures"
        self.fact("dealt-a", f"Dealt {k.live} {k.live} (λ i. at {written} ({self.turn} + i * {k.count})) {self.inputs}", f"dealt (omega arith) {step}.ensures (λ i l. refl)")

    def tiles(self):
        k, value = self.kernel, lambda c: f"(λ x y. middle short_range (strip_sum {self.kernel.points} {c}.w {c}.x0 {c}.rows {c}.c{'.now' if c == 'c.args' else ''} x y))"
        held = f"{self.loop}.invariant"
        for b in k.starts:
            step, written, need = self.call("put")
            self.fact(f"tile-{b + k.tile}", f"Turning {k.tile} {k.count} {k.points} {self.turn} {b + k.tile} {value('c.args')} {written} c.args.m.now",
                      f"put_next {k.count * k.live} c.args.w c.args.x0 c.args.c.now places-{k.tile}-{k.count} c.requires.0.few taken"
                      f" {self.stripped} dealt-a {self.held['y']} {b} refl (omega arith) (omega arith) {held} {step}.ensures")
            held = f"tile-{b + k.tile}"
        self.answer("loop-x-preserved", f"turn-column (omega arith) {held}")
        if k.turns == "many":
            self.answer("returns", f"turn-all (omega (arith, c.requires.1.1)) {self.loop}.invariant", [])
        return f"Turning {k.tile} {k.count} {k.points} l.x 0 {value('l')} l.m l.initial.m"

    # ---- along: groups of columns, and rows

    def take(self):
        k, held = self.kernel, f"(gather_none {self.kernel.live} _)"
        for b in k.groups:
            step, written, need = self.call("take")
            group, end = f"c.requires.0 {b // 8} {self.turn} taken", min(b + 8, k.live)
            places = [self.again(f"slice_bounds-take-{end}") for end in ("count", "start")]
            if b:
                places += [f"overflow_add-i{b}", f"offset_bounds-m-i{b}"] + ([f"overflow_mul-i{b}"] if b > 8 else [])
                for place in places:
                    self.answer(place, f"omega (arith, group-there {group} 0 (omega arith) (omega arith))", self.facts[:1])
            room = f"omega (arith, {held}.long)" if b else "omega arith"
            self.answer(need, f"({room}, λ i h. group-room {group} _ i (omega arith) (omega arith) (omega arith))")
            self.fact(f"gathered-{end}", f"Gathered {end} {k.live} (across c.args.m.now {k.count} c.args.apart {self.turn}) {written}",
                      f"group-next {group} _ (omega arith) (omega arith) (omega arith) {held} {step}.ensures")
            held, self.inputs = f"gathered-{end}", written
        self.gathered = held
        self.half()
        self.fact("small", "nat_abs half ≤ 1000000", "subst (λ (z : ℤ). nat_abs z ≤ 1000000) (sym half-is) c.requires.0.small")

    def part(self, b):
        """what the invariant says of the local tile from column b on"""
        return f"{self.loop}.invariant" + ".1" * (b // 8) + (".0" if b + 8 < self.kernel.points else "")

    def rows(self):
        k = self.kernel
        sums = f"rows_sum {k.points} {k.live} {k.count}"
        value = f"(λ j y. shifted half c.args.shift ({sums} c.args.apart c.args.m.now j y))"
        for b in k.starts:
            step, written, need = self.call("round")
            self.fact(f"row-{b}", f"WroteFrom 0 ({k.tile} * ({self.turn} + 1)) {written} (replicate {k.tile * k.count} (pos 0)) (tiled {k.tile} {value} {b})",
                      f"round-next c.args.shift {k.count} c.args.apart {self.turn} c.args.m.now {self.gathered} {self.held['y']} {b} (omega arith) {self.part(b)} {step}.ensures")
        self.answer("loop-l-preserved", nested([f"row-{b}" for b in k.starts], ", "))
        self.facts = []
        self.half()
        full = f"{k.tile} * {self.turn} ≡ {k.tile * k.count}"
        self.fact("full", full, "omega (arith, c.requires.1.1)" if k.turns == "many" else "omega arith")
        held = f"(columns-none _ {self.long})"
        for b in k.starts:
            step, written, need = self.call("spread", False)
            self.fact(f"columns-{b + k.tile}", f"Columns {b + k.tile} {k.count} {k.points} {value} {written}",
                      f"columns-next {held} (wrote-to {k.tile * k.count} full {self.part(b)}) {step}.ensures")
            held = f"columns-{b + k.tile}"
        given = f"ap (λ (z : ℤ). block {k.points} {k.count} (λ j y. shifted z c.args.shift ({sums} c.args.apart c.args.m.now j y))) half-is"
        self.answer("returns", f"columns-all (omega arith) {held} ∙ {given}")
        value = f"(λ j y. shifted l.half l.shift ({sums} l.apart l.m j y))"
        return nested([f"WroteFrom 0 ({k.tile} * l.l) l.r{b // 8} l.initial.r{b // 8} (tiled {k.tile} {value} {b})" for b in k.starts], " × ")

    # ---- the files

    def texts(self):
        self.given()
        self.strip() if self.down else self.take()
        for level in self.kernel.levels:
            self.level(level)
        holds = self.tiles() if self.down else self.rows()
        loop = f"invariant-loop-{self.counter}"
        return f"abbrev pub {loop} : goal.{loop}\n{loop} l = {holds}\n", "\n".join(self.answers)


MODULES = """Rattle.std.proofs.Common ◌≡◌ refl sym ap ◌∙◌ subst ℕ ◌+◌ ◌*◌ ◌≤◌ ◌<◌ ℤ pos nat_abs to_z of_z arith
mir.Syntax w32
mir.ValLaws to_z-of_z
lib.ListN replicate
Rattle.algebra.specs.Lists at block
Rattle.meaning.specs.Plan short_range
Rattle.meaning.specs.Inverse middle
Rattle.product.specs.Product line_sum shifted
Rattle.halves.specs.Halves evens
Rattle.halves.proofs.Halved halves-4 halves-8 halves-16 halves-32
Rattle.kernel_steps.specs.Written WroteFrom
Rattle.kernel_steps.proofs.Writing wrote-to
Rattle.kernel_levels.specs.Kernels strip_sum across rows_sum
Rattle.kernel_levels.proofs.Levels Dealt dealt Gathered gather_none weighed Made made_none made-next made-small Sums sums-small lowest up mirrored
Rattle.kernel_levels.proofs.Tiles places-8-8 places-8-4 places-4-8 places-4-4 Turning turn-column turn-all put_next
Rattle.kernel_levels.proofs.Across group-there group-room group-next tiled round-next Columns columns-none columns-next columns-all"""


def imports(crate, kernel, body, goals):
    """what the text cites, and no more"""
    words = set(re.split(r"[\s(){};,]+", body))
    tables = sorted({level.proved for level in kernel.levels if not level.mirrored})
    lines = ""
    for module, *names in [line.split() for line in MODULES.splitlines()] + [["Rattle.kernel_levels.proofs.Stored", *(table + end for table in tables for end in ("", "-right"))]]:
        used = [name for name in names if name.strip("◌") in words]
        lines += f"use {module}.{{{', '.join(used)}}}\n" if used else ""
    return lines + f"use Rattle.{crate}.proofs.{kernel.name}.{goals} as goal\n"


def proof(crate, kernel, made):
    """the two files of a kernel's proof, by name"""
    invariant, answers = Proof(kernel).texts()
    end = "into turned tiles" if kernel.direction == "down" else "into rows"
    heads = {
        "Invariants.antt": (f"-- {made} What the turns of `{kernel.name}` keep.\n", "Given", invariant),
        "Answers.antt": (f"-- {made} `{kernel.name}`: up the levels from 2 points to {kernel.points}, then {end}. Assumes nothing.\n", "Goals", answers),
    }
    return {name: head + imports(crate, kernel, body, goals) + "\n" + body for name, (head, goals, body) in heads.items()}
