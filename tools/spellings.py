#!/usr/bin/env python3
"""Writes crates/em_gram/proofs/Spellings.antt, and the folds at the end of
crates/em_gram/specs/Patterns.antt.

Each tree is spelled by a fold whose steps stand in Patterns.antt. Here the fold is written for each
type, and the equations that say what it is on a tree that was made of parts. Run it in the root of
the repository."""
from fold_files import TREE, write_folds

MODULE = "Rattle.em_gram."
# A fold's arguments: the enums as they stand in the source, then the structs by alphabet. The name
# of the fold, its
# step, and what it gives.
E, Q, P, S, O = "Expr", "(Bool → PieceSpelling)", "PieceSpelling", "Spelling", "(Option Expr)"
TYPES = [
    ("Command", "command_pattern", "command", E),
    ("Compound", "compound_pattern", "compound", E),
    ("WordWhat", "what_spelled_as", "what", Q),
    ("AndOr", "and_or_pattern", "and_or", E),
    ("Assigned", "assigned_pattern", "assigned", E),
    ("Branch", "branch_pattern", "branch", E),
    ("Case", "case_pattern", "case", E),
    ("For", "for_pattern", "for", E),
    ("If", "if_pattern", "if", E),
    ("Item", "item_pattern", "item", E),
    ("Joined", "joined_pattern", "joined", E),
    ("Loop", "loop_pattern", "loop", E),
    ("Pipeline", "pipeline_pattern", "pipeline", E),
    ("Redirect", "redirect_pattern", "redirect", E),
    ("Script", "script_listing", "script", O),
    ("Simple", "simple_pattern", "simple", E),
    ("Word", "word_spelling", "word", S),
    ("WordPiece", "piece_spelling", "piece", P),
]
FOLD = {t: f for t, f, _, _ in TYPES}
STEP = {t: s for t, _, s, _ in TYPES}
ARGS = " ".join(r for _, _, _, r in TYPES) + " " + " ".join(s + "_step" for _, _, s, _ in TYPES)
UNFOLD = "unfolding " + " ".join(f for _, f, _, _ in TYPES) + "\n"

# The folds of what an Option holds, as they are written in terms of its parts.
HELD = {"Script": ("script_pattern", "option_map some_list (%s)")}

# What a struct's tree is spelled as, in terms of its fields.
OPTION = {"If": ("other", "Script"), "Item": ("body", "Script")}
STRUCTS = [
    ("Script", [("list", "Vec AndOr _")], "list_of (map and_or_pattern {list}.items)"),
    (
        "AndOr",
        [("first", "Pipeline"), ("rest", "Vec Joined _")],
        "pipeline_pattern {first} ⨾ all (map joined_pattern {rest}.items)",
    ),
    (
        "Joined",
        [("and", "Bool"), ("next", "Pipeline")],
        "key (cond {and} AndIf OrIf) ⨾ newlines ⨾ pipeline_pattern {next}",
    ),
    (
        "Pipeline",
        [("not", "Bool"), ("stages", "Vec Command _")],
        "cond {not} (reserved Bang) empty ⨾ staged (map command_pattern {stages}.items)",
    ),
    (
        "Simple",
        [
            ("assigned", "Vec Assigned _"),
            ("words", "Vec Word _"),
            ("texts", "Vec (List ℕ) _"),
            ("redirects", "Vec Redirect _"),
        ],
        "simple_spelled (map assigned_pattern {assigned}.items) (map word_spelling {words}.items) "
        "(map redirect_pattern {redirects}.items)",
    ),
    (
        "Assigned",
        [("name", "List ℕ"), ("value", "Word")],
        "assigned_spelled {name} (word_spelling {value})",
    ),
    (
        "Redirect",
        [("fd", "ℕ"), ("kind", "RedirectKind"), ("target", "Word")],
        "redirect_spelled {kind} {fd} (word_spelling {target})",
    ),
    (
        "If",
        [("branches", "Vec Branch _"), ("other", "Option Script")],
        "key If_ ⨾ bare ⨾ branches_of (map branch_pattern {branches}.items) ⨾ else_of (OPTION) ⨾ "
        "reserved Fi",
    ),
    (
        "Branch",
        [("test", "Script"), ("body", "Script")],
        "block_of (script_pattern {test}) ⨾ reserved Then ⨾ block_of (script_pattern {body})",
    ),
    (
        "Loop",
        [("until", "Bool"), ("test", "Script"), ("body", "Script")],
        "key (cond {until} Until While) ⨾ bare ⨾ block_of (script_pattern {test}) ⨾ do_of "
        "(script_pattern {body})",
    ),
    (
        "For",
        [("name", "List ℕ"), ("words", "Vec Word _"), ("body", "Script")],
        "key For_ ⨾ bare ⨾ name_spelled {name} ⨾ reserved In ⨾ all (map any_word (map "
        "word_spelling {words}.items)) ⨾ sequential ⨾ do_of (script_pattern {body})",
    ),
    (
        "Case",
        [("word", "Word"), ("items", "Vec Item _")],
        "key Case_ ⨾ bare ⨾ any_word (word_spelling {word}) ⨾ reserved In ⨾ newlines ⨾ items_of "
        "(map item_pattern {items}.items) ⨾ reserved Esac",
    ),
    (
        "Item",
        [("patterns", "Vec Word _"), ("body", "Option Script")],
        "patterns_of (map word_spelling {patterns}.items) ⨾ key RightParen ⨾ newlines ⨾ body_of "
        "(OPTION)",
    ),
    ("Word", [("pieces", "Vec WordPiece _")], "of_pieces (map piece_spelling {pieces}.items)"),
    ("WordPiece", [("quoted", "Bool"), ("what", "WordWhat")], "what_spelled_as {what} {quoted}"),
]
VARIANTS = [
    ("Command", "Simple", "(x : Simple)", "x", "simple_pattern x"),
    (
        "Command",
        "Compound",
        "(x : Compound) (rs : Vec Redirect _)",
        "x rs",
        "compound_pattern x ⨾ all (map redirect_pattern rs.items)",
    ),
    (
        "Compound",
        "Subshell",
        "(x : Script)",
        "x",
        "key LeftParen ⨾ block_of (script_pattern x) ⨾ key RightParen",
    ),
    (
        "Compound",
        "Group",
        "(x : Script)",
        "x",
        "key LeftBrace ⨾ bare ⨾ block_of (script_pattern x) ⨾ reserved RightBrace",
    ),
    ("Compound", "If", "(x : If)", "x", "if_pattern x"),
    ("Compound", "Loop", "(x : Loop)", "x", "loop_pattern x"),
    ("Compound", "For", "(x : For)", "x", "for_pattern x"),
    ("Compound", "Case", "(x : Case)", "x", "case_pattern x"),
    ("WordWhat", "Bytes", "(t : List ℕ)", "t", "bytes_spelling t"),
    ("WordWhat", "Value", "(x : Value)", "x", "value_spelling x.name x.form"),
    ("WordWhat", "Argument", "(x : Value)", "x", "argument_spelling x.name x.form"),
    ("WordWhat", "End", "", "", "end_spelling"),
    ("WordWhat", "Output", "(x : Script)", "x", "output_spelling (script_listing x)"),
]


BEHIND = """
-- a script that has commands; one that may have none
abbrev pub script_pattern : ScriptTree → Expr
script_pattern s = some_list (script_listing s)

abbrev pub body_pattern : ScriptTree → Expr
body_pattern s = body_of (script_listing s)
"""


def folds():
    return (
        "".join(
            "\nunfoldable pub %s : %sTree → %s\n%s = fold-%s %s\n"
            % (f, t, r.strip("()"), f, t, ARGS)
            for t, f, _, r in TYPES
        )
        + BEHIND
    )


def head():
    steps = ", ".join(s + "_step" for _, _, s, _ in TYPES)
    names = ", ".join(f for _, f, _, _ in TYPES)
    s = """-- How each tree is spelled, in terms of its parts. Written by tools/spellings.py.
use Rattle.std.proofs.Common.{◌≡◌, ℕ, List, Bool, map, refl, ap, sym, ◌∙◌, cond, Option, Some, None}
use Rattle.std.specs.Option.{option_map}
use Rattle.std.specs.declared.vec.Vec.{Vec}
use Rattle.em_grammar.specs.Production.{empty, ◌⨾◌}
use Rattle.em_grammar.specs.Gives.{all}
use Rattle.em_token.specs.Shell.{Expr, key, newlines, sequential, bare, reserved}
use Rattle.em_token.specs.declared.kind.Kind.TheVariants.{Bang, If as If_, Then, Fi, Until, While, For as For_, In, Case as Case_, Esac, LeftBrace, RightBrace, LeftParen, RightParen, AndIf, OrIf}
use Rattle.em_syntax.specs.declared.tree.RedirectKind.{RedirectKind}
use Rattle.em_gram.specs.Patterns.{script_pattern, Spelling, PieceSpelling, of_pieces, bytes_spelling, output_spelling, value_spelling, argument_spelling, end_spelling, any_word, assigned_spelled, redirect_spelled, simple_spelled, some_list, list_of, block_of, do_of, staged, else_of, branches_of, body_of, patterns_of, items_of}
use Rattle.em_token.specs.Words.{name_spelled}
"""
    s += "use %sspecs.Patterns.{%s}\nuse %sspecs.Patterns.{%s}\n" % (MODULE, steps, MODULE, names)
    s += "use %sCommand.TheOpen.{Command-F, Compound-F, WordWhat-F}\n" % TREE
    s += "use %sCommand.TheShapes.{former-If-other}\n" % TREE
    for t in dict.fromkeys(v[0] for v in VARIANTS):
        vs = [v[1] for v in VARIANTS if v[0] == t]
        s += "use %s%s.{%s, fold-roll-%s}\n" % (TREE, t, t, t)
        s += "use %s%s.TheVariants.{%s, %s}\n" % (
            TREE,
            t,
            ", ".join("%s as the-%s" % (v, v) for v in vs),
            ", ".join("rolls-" + v for v in vs),
        )
    s += "use %sValue.{Value}\n" % TREE
    for t, _, _ in STRUCTS:
        s += "use %s%s.{%s, roll-%s, fold-roll-%s, out-%s, fold_out-%s}\n" % (
            TREE,
            t,
            t,
            t,
            t,
            t,
            t,
        )
    return s


def options():
    s = ""
    for t, shape in (("Script", "If-other"),):
        kind = next(r for n, _, _, r in TYPES if n == t)
        n = STEP[t]
        made, seen = HELD[t]
        s += (
            "\n%s_option : (o : Option %s) → %s ≡ option_map %s o\n%s_option None = refl\n"
            "%s_option (Some x) = refl\n"
            % (n, t, seen % ("(former-%s).map %s %s %s o" % (shape, t, kind, FOLD[t])), made, n, n)
        )
    return s


def option_step(t, text, of):
    """The step from the fold's own map over an Option to `option_map`."""
    if t not in OPTION:
        return text, ""
    field, inner = OPTION[t]
    body = text.replace("OPTION", "z")
    return text.replace(
        "OPTION", "option_map %s %s" % (HELD[inner][0], of)
    ), " ∙ ap (λ z. %s) (%s_option %s)" % (body, STEP[inner], of)


def equations():
    s = ""
    for t, fields, rhs in STRUCTS:
        fold, name = FOLD[t], STEP[t]
        made = {
            f: f if f not in ("and", "not", "list", "what", "rest") else f + "_" for f, _ in fields
        }
        if t in OPTION:
            made[OPTION[t][0]] = "o"
        text, tail = option_step(t, rhs.format(**made), "o")
        record = "; ".join("%s = %s" % (f, made[f]) for f, _ in fields)
        binders = " ".join("(%s : %s)" % (made[f], ty) for f, ty in fields)
        s += (
            "\npub %s_made : %s → %s (roll-%s (record { %s })) ≡ (%s)\n"
            "%s%s_made %s = fold-roll-%s %s (record { %s })%s\n"
            % (
                name,
                binders,
                fold,
                t,
                record,
                text,
                UNFOLD,
                name,
                " ".join(made[f] for f, _ in fields),
                t,
                ARGS,
                record,
                tail,
            )
        )
        part = {f: "(out-%s d).%s" % (t, f) for f, _ in fields}
        text, tail = option_step(
            t, rhs.format(**part), "(out-%s d).%s" % (t, OPTION[t][0]) if t in OPTION else ""
        )
        s += "\npub %s_is : (d : %s) → %s d ≡ (%s)\n%s%s_is d = fold_out-%s %s d%s\n" % (
            name,
            t,
            fold,
            text,
            UNFOLD,
            name,
            t,
            ARGS,
            tail,
        )
    for t, v, binders, args, rhs in VARIANTS:
        fold, name = FOLD[t], STEP[t] + "_" + v
        made, args = ("the-%s %s" % (v, args), " " + args) if args else ("the-%s" % v, "")
        s += (
            "\npub %s : %s%s (%s) ≡ (%s)\n%s%s%s = ap %s (sym (rolls-%s%s)) ∙ fold-roll-%s %s "
            "(%s-F.%s%s)\n"
            % (
                name,
                binders + " → " if binders else "",
                fold,
                made,
                rhs,
                UNFOLD,
                name,
                args,
                fold,
                v,
                args,
                t,
                ARGS,
                t,
                v,
                args,
            )
        )
    return s


write_folds("spellings", "Patterns", folds(), "Spellings", head() + options() + equations())
