#!/usr/bin/env python3
"""Writes crates/em_gram/proofs/Shapes.antt, and the folds at the end of
crates/em_gram/specs/Same.antt.

The steps of the folds stand in Same.antt. Here the fold is written for each type, with what it is
on a tree in terms of the tree's parts; and for each enum that a value of it is one of its variants.
Run it in the root of the repository."""
import re

from fold_files import TREE, write_folds

# The enums as they stand in the source, then the structs by alphabet; and the names of the folds.
TYPES = [
    ("Command", "command"),
    ("Compound", "compound"),
    ("WordWhat", "what"),
    ("AndOr", "and_or"),
    ("Assigned", "assigned"),
    ("Branch", "branch"),
    ("Case", "case"),
    ("For", "for"),
    ("If", "if"),
    ("Item", "item"),
    ("Joined", "joined"),
    ("Loop", "loop"),
    ("Pipeline", "pipeline"),
    ("Redirect", "redirect"),
    ("Script", "script"),
    ("Simple", "simple"),
    ("Word", "word"),
    ("WordPiece", "piece"),
]
NAME = dict(TYPES)
ARGS = " ".join("Shape" for _ in TYPES) + " " + " ".join(n + "_shaped" for _, n in TYPES)
UNFOLD = "unfolding " + " ".join(n + "_shape" for _, n in TYPES) + "\n"

# What a struct's shape is, in terms of its fields: a text with the fields of a value d.
FIELDS = {
    "AndOr": "pair (pipeline_shape d.first) (row (map joined_shape d.rest.items))",
    "Assigned": "pair (bytes d.name) (word_shape d.value)",
    "Branch": "pair (script_shape d.test) (script_shape d.body)",
    "Case": "pair (word_shape d.word) (row (map item_shape d.items.items))",
    "For": "pair (bytes d.name) (pair (row (map word_shape d.words.items)) (script_shape d.body))",
    "If": "pair (row (map branch_shape d.branches.items)) "
    "(optional (option_map script_shape d.other))",
    "Item": "pair (row (map word_shape d.patterns.items)) "
    "(optional (option_map script_shape d.body))",
    "Joined": "pair (flag d.and) (pipeline_shape d.next)",
    "Loop": "pair (flag d.until) (pair (script_shape d.test) (script_shape d.body))",
    "Pipeline": "pair (flag d.not) (row (map command_shape d.stages.items))",
    "Redirect": "pair (number d.fd) (pair (kind d.kind) (word_shape d.target))",
    "Script": "row (map and_or_shape d.list.items)",
    "Simple": "pair (row (map assigned_shape d.assigned.items)) "
    "(pair (row (map word_shape d.words.items)) (row (map redirect_shape d.redirects.items)))",
    "Word": "row (map piece_shape d.pieces.items)",
    "WordPiece": "pair (flag d.quoted) (what_shape d.what)",
}
# The fields that are an Option: whose they are, its name, what it holds, and the shape of the
# field.
OPTION = {"If": ("other", "Script", "If-other"), "Item": ("body", "Script", "If-other")}
VARIANTS = [
    (
        "Command",
        [
            ("Simple", [("Simple", "simple_shape {}")]),
            (
                "Compound",
                [
                    ("Compound", "compound_shape {}"),
                    ("Vec Redirect _", "row (map redirect_shape {}.items)"),
                ],
            ),
        ],
    ),
    (
        "Compound",
        [
            ("Subshell", [("Script", "script_shape {}")]),
            ("Group", [("Script", "script_shape {}")]),
            ("If", [("If", "if_shape {}")]),
            ("Loop", [("Loop", "loop_shape {}")]),
            ("For", [("For", "for_shape {}")]),
            ("Case", [("Case", "case_shape {}")]),
        ],
    ),
    (
        "WordWhat",
        [
            ("Bytes", [("List ℕ", "bytes {}")]),
            ("Value", [("Value", "value_shaped {}")]),
            ("Argument", [("Value", "value_shaped {}")]),
            ("End", []),
            ("Output", [("Script", "script_shape {}")]),
        ],
    ),
]
OPEN = " ".join(t for t, _ in TYPES)


def folds():
    return "".join(
        "\nunfoldable pub %s_shape : %s → Shape\n%s_shape = fold-%s %s\n" % (n, t, n, t, ARGS)
        for t, n in TYPES
    )


def head():
    s = """-- The shape of each tree, in terms of its parts. Written by tools/shapes.py.
use Rattle.std.proofs.Common.{◌≡◌, ◌⊎◌, inl, inr, ℕ, List, map, refl, ap, sym, ◌∙◌, Option, Some, None}
use Rattle.std.specs.Option.{option_map}
use Rattle.std.specs.declared.vec.Vec.{Vec}
use Rattle.em_gram.specs.Same.{Shape, nothing, pair, bytes, flag, number, kind, variant, row, optional, value_shaped}
"""
    s += "use Rattle.em_gram.specs.Same.{%s}\n" % ", ".join(n + "_shaped" for _, n in TYPES)
    s += "use Rattle.em_gram.specs.Same.{%s}\n" % ", ".join(n + "_shape" for _, n in TYPES)
    s += "use %sCommand.TheOpen.{Command-F, Compound-F, WordWhat-F}\n" % TREE
    s += "use %sCommand.TheShapes.{former-If-other}\n" % TREE
    for t, vs in VARIANTS:
        s += "use %s%s.{%s, roll-%s, fold-roll-%s, out-%s, roll-out-%s}\n" % (
            TREE,
            t,
            t,
            t,
            t,
            t,
            t,
        )
        s += "use %s%s.TheVariants.{%s}\n" % (
            TREE,
            t,
            ", ".join(
                "%s as the-%s-%s, rolls-%s as rolls-%s-%s" % (v, t, v, v, t, v) for v, _ in vs
            ),
        )
    s += "use %sValue.{Value}\n" % TREE
    for t, _ in TYPES[3:]:
        s += "use %s%s.{%s, out-%s, fold_out-%s}\n" % (TREE, t, t, t, t)
    return s


def options():
    s = ""
    for t, shape in (("Script", "If-other"),):
        n = NAME[t]
        s += (
            "\n%s_option : (o : Option %s) → (former-%s).map %s Shape %s_shape o ≡ option_map "
            "%s_shape o\n%s_option None = refl\n%s_option (Some x) = refl\n"
            % (n, t, shape, t, n, n, n, n)
        )
    return s


def structs():
    s = ""
    for t, n in TYPES[3:]:
        text = re.sub(r"\bd\.", "(out-%s d)." % t, FIELDS[t])
        tail = ""
        if t in OPTION:
            field, held, _ = OPTION[t]
            whole = "option_map %s_shape (out-%s d).%s" % (NAME[held], t, field)
            assert whole in text
            tail = " ∙ ap (λ z. %s) (%s_option (out-%s d).%s)" % (
                text.replace(whole, "z"),
                NAME[held],
                t,
                field,
            )
        s += (
            "\npub %s_shape_is : (d : %s) → %s_shape d ≡ (%s)\n"
            "%s%s_shape_is d = fold_out-%s %s d%s\n"
            % (n, t, n, text, UNFOLD, n, t, ARGS, tail)
        )
    return s


def enums():
    s = ""
    for t, vs in VARIANTS:
        n = NAME[t]
        cases = []
        for k, (v, fields) in enumerate(vs):
            xs = "xyz"[: len(fields)]
            binders = " ".join("(%s : %s)" % (x, f[0]) for x, f in zip(xs, fields))
            args = "".join(" " + x for x in xs)
            made = "(the-%s-%s%s)" % (t, v, args) if args else "the-%s-%s" % (t, v)
            shapes = [f[1].format(x) for x, f in zip(xs, fields)]
            inner = ("pair (%s) (%s)" if len(shapes) == 2 else "%s") % tuple(shapes or ["nothing"])
            s += (
                "\npub %s_shape_%s : %s%s_shape %s ≡ variant %d (%s)\n"
                "%s%s_shape_%s%s = ap %s_shape (sym (rolls-%s-%s%s)) ∙ fold-roll-%s %s "
                "(%s-F.%s%s)\n"
                % (
                    n,
                    v,
                    binders + " → " if binders else "",
                    n,
                    made,
                    k,
                    inner,
                    UNFOLD,
                    n,
                    v,
                    args,
                    n,
                    t,
                    v,
                    args,
                    t,
                    ARGS,
                    t,
                    v,
                    args,
                )
            )
            parts = ["(%s : %s)" % (x, f[0]) for x, f in zip(xs, fields)]
            cases.append((v, " × ".join(parts + ["(d ≡ %s)" % made]), args))
        # nested to the right
        nest = "(%s)" % cases[-1][1]
        for c in reversed(cases[:-1]):
            nest = "((%s) ⊎ %s)" % (c[1], nest)
        s += "\nabbrev pub %s_case : %s → Type 0\n%s_case d = %s\n" % (t, t, t, nest)
        s += (
            "\npub %s_cases : (d : %s) → %s_case d\n%s_cases d = at (out-%s d) (roll-out-%s d)\n"
            "  where\n    at : (f : %s-F %s) → roll-%s f ≡ d → %s_case d\n"
            % (n, t, t, n, t, t, t, OPEN, t, t)
        )
        for k, (v, _, args) in enumerate(cases):
            inner = "(%s)" % ", ".join(args.split() + ["sym e ∙ rolls-%s-%s%s" % (t, v, args)])
            if k < len(cases) - 1:
                inner = "inl " + inner
            for _ in range(k):
                inner = "inr (%s)" % inner
            s += "    at %s e = %s\n" % (
                "(%s-F.%s%s)" % (t, v, args) if args else "%s-F.%s" % (t, v),
                inner,
            )
    return s


write_folds("shapes", "Same", folds(), "Shapes", head() + options() + structs() + enums())
