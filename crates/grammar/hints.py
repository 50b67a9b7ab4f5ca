# What tools/proofs is told of this grammar: the names that a written proof may cite and the modules they stand in, none where it may cite
# all; short names of modules; the contracts that have a law of their own: tests that change nothing, and acts whose answer is not read; what
# lays a nested definition out in a row; and of single functions what cannot be read off the code. docs/PRODUCTIONS.md has the keys.
MODULES = [
    ("Rattle.runtime.proofs.Laws", [
        "then", "step", "peek", "peeks", "see", "go", "ask", "any", "all", "only", "ends", "Ran", "ran-none", "ran-more", "ran-done",
        "spent-does", "spent-steps", "spent-peeks", "falls", "falls-peeks", "falls-steps", "left-sees", "left-asked", "left-goes",
        "left-told", "left-on", "spends-nth", "spends-bump", "most-left"]),
    ("Rattle.grammar.proofs.Laws", ["assoc", "cond-bind", "done-bind", "past", "passed", "list-end", "list-go"]),
    ("borrow.Author.Tests", ["ne_eqb", "lt-ltb", "le-ltb", "eq-eqb"]),
    ("borrow.Author.Rules", ["rules"]),
    ("native.Mathlib.Nat", ["lt_of_le_of_lt"]),
    ("native.Mathlib.Omega", ["arith"]),
    ("lib.ListN", ["length"]),
    ("mathlib.Core.Bool", ["false"]),
    ("mathlib.Core.Path", ["◌≡◌", "sym", "◌∙◌", "refl"]),
    ("Rattle.input.specs.Lent", ["tokens"]),
    ("Rattle.runtime.specs.State", ["view"]),
    ("Rattle.operators.specs.Operators", ["table_of"]),
    ("Rattle.grammar.specs.Entry", ["counted", "later"]),
    ("Rattle.kinds.specs.Membership", ["one_of"]),
    ("Rattle.kinds.specs.Kinds", []),
    ("Prim.Native.Nat", ["ℕ", "◌+◌", "◌*◌", "◌≤◌", "◌<◌"]),
]
ALIASES = [
    ("acts", "Rattle.runtime.specs.Acts"),
    ("G", "Rattle.grammar.specs.Grammar"),
    ("E", "Rattle.grammar.specs.Expressions"),
    ("P", "Rattle.grammar.specs.Params"),
    ("A", "Rattle.grammar.specs.Atom"),
    ("I", "Rattle.grammar.specs.Items"),
    ("O", "Rattle.operators.specs.Operators"),
    ("T", "Rattle.grammar.specs.Entry"),
]
TOLD = [
    ("≡ sees ", "see _ _ _ _"),
    ("≡ goes ", "go _ _ _ _"),
    ("≡ stopped ", "ask _ _ _"),
    ("≡ acts.ends_here ", "list-end _ _ _ _"),
    ("≡ acts.goes_here ", "list-go _ _ _ _"),
    ("(acts.expected ", "past _ _ _ _"),
    ("(acts.completed ", "passed _ _ _ _"),
]
FLAT = "simp (assoc, cond-bind, done-bind)"
HINTS = {}
