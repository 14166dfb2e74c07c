"""What the scripts share that write folds over the syntax tree of em_gram."""
TREE = "Rattle.em_syntax.specs.declared.tree."


def write_folds(script, specs, folds, proofs, lemmas):
    """Puts the folds behind the script's mark at the end of a file of definitions, and the lemmas
    into a proof file."""
    mark = "-- FOLDS: written by tools/%s.py\n" % script
    path = "crates/em_gram/specs/%s.antt" % specs
    with open(path) as f:
        kept = f.read().split(mark)[0]
    with open(path, "w") as f:
        f.write(kept + mark + folds.lstrip("\n"))
    with open("crates/em_gram/proofs/%s.antt" % proofs, "w") as f:
        f.write(lemmas)
