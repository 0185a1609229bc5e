#!/usr/bin/env python3
"""Writes the size, the code and the view of the trees of scripts, and the walks of a law, from their definitions.

It reads crates/js_tree/specs/Tree.antt and writes Size.antt and Code.antt beside it; View.antt, the tree that the code's
own structs and enums stand for, it writes from that file and from src/expression.rt and src/statement.rt together. The
walks over trees of js_binding, js_law_source and js_law_right it writes too (tree_walks.py). Run it at the top of the
repository after each change of a tree; with the word `--check` it writes nothing and ends with status 1 where a file is
not the one that it would write.
"""
import re
import sys
from pathlib import Path

from tree_walks import walks

SPECS = Path("crates/js_tree/specs")
CRATES = Path("crates")
SOURCES = Path("crates/js_tree/src")
NOTE = "-- Written by tools/write_tree.py from Tree.antt: change that file, and run the script.\n"
VIEW_NOTE = "-- Written by tools/write_tree.py from Tree.antt, src/expression.rt and src/statement.rt: change these, and run it.\n"

# The enums without fields that trees hold: their name in code, and the source file of each.
ENUMS = {
    "UnaryOp": "operators",
    "UpdateForm": "operators",
    "UpdateOp": "operators",
    "BinaryOp": "operators",
    "AssignOp": "operators",
}

# The types of parts that are no trees: the name of their code.
LEAVES = {
    "Place": "place",
    "ℕ": "nat",
    "ℤ": "int",
    "List ℕ": "text",
    "List (List ℕ)": "texts",
    "Literal": "literal",
    "BoundName": "bound_name",
    "Option BoundName": "optional_name",
    "List BoundName": "bound_names",
    "UnaryOp": "unary_op",
    "UpdateForm": "update_form",
    "UpdateOp": "update_op",
    "BinaryOp": "binary_op",
    "AssignOp": "assign_op",
}


def snake(name):
    """`OptionalExpression` as `optional_expression`."""
    return re.sub(r"(?<!^)([A-Z])", r"_\1", name).lower()


def short(name):
    """The name of a type of trees in the names of functions: `ExpressionTree` as `expression`."""
    return snake(name.removesuffix("Tree"))


def read_trees(text):
    """The types of trees, each with its constructors and the types of their parts."""
    types, current = {}, None
    for line in text.split("\n"):
        if found := re.match(r"  pub data (\w+) :", line):
            current = found.group(1)
            types[current] = []
        elif current and (found := re.match(r"    (\w+) : (.*)$", line)):
            types[current].append((found.group(1), found.group(2).split(" → ")[:-1]))
    return types


def variants(enum, module):
    """The variants of an enum without fields, as its source file lists them."""
    source = (SOURCES / f"{module}.rt").read_text()
    body = re.search(r"pub enum " + enum + r" \{(.*?)\n\}", source, re.S).group(1)
    return re.findall(r"^    (\w+),$", body, re.M)


def pattern(constructor, parts):
    """A constructor with a variable for each part."""
    names = " ".join(f"x{i}" for i in range(len(parts)))
    return f"({constructor} {names})" if parts else constructor


def imports(types):
    names = [name for tree in types for name in [tree] + [c for c, _ in types[tree]]]
    return "use Rattle.js_tree.specs.Tree.{" + ", ".join(names) + "}\n"


def part_size(kind, variable, types):
    """What a part adds to a size: a tree its size, names their number."""
    if kind in types:
        return f"{short(kind)}_size {variable}"
    if kind in ("BoundName", "Option BoundName"):
        return "1"
    if kind in ("List BoundName", "List (List ℕ)"):
        return f"length {variable}"
    return None


def write_size(types):
    out = [NOTE + "-- The size of a tree: its nodes, its names and the lists between them. It is above that of each tree in it."]
    out.append("use Rattle.std.specs.Prelude.{ℕ, ◌+◌, length}\n" + imports(types))
    out.append("abbrev mutual")
    for tree in types:
        name = short(tree) + "_size"
        out.append(f"  pub {name} : {tree} → ℕ")
        for constructor, parts in types[tree]:
            sizes = [part_size(kind, f"x{i}", types) for i, kind in enumerate(parts)]
            total = " + ".join([size for size in sizes if size] + ["1"])
            out.append(f"  {name} {pattern(constructor, parts)} = {total}")
        out.append("")
    return "\n".join(out).rstrip() + "\n"


LEAF_CODES = """abbrev pub place_gv : Place → Gv
place_gv p = gcons (gnum p.line) (gnum p.column)

abbrev pub place_from : Gv → Place
place_from (gcons a b) = record { line = num a; column = num b }
place_from _ = record { line = 0; column = 0 }

pub place_back : (p : Place) → place_from (place_gv p) ≡ p
place_back p = refl

abbrev pub int_gv : ℤ → Gv
int_gv (pos n) = gcons (gnum 0) (gnum n)
int_gv (negsuc n) = gcons (gnum 1) (gnum n)

abbrev pub int_by : ℕ → ℕ → ℤ
int_by zero n = pos n
int_by (suc tag) n = negsuc n

abbrev pub int_from : Gv → ℤ
int_from (gcons a b) = int_by (num a) (num b)
int_from _ = pos 0

pub int_back : (n : ℤ) → int_from (int_gv n) ≡ n
int_back (pos n) = refl
int_back (negsuc n) = refl

abbrev pub text_gv : List ℕ → Gv
text_gv [] = gnil
text_gv (x ∷ xs) = gcons (gnum x) (text_gv xs)

abbrev pub text_from : Gv → List ℕ
text_from (gcons a b) = num a ∷ text_from b
text_from _ = []

pub text_back : (xs : List ℕ) → text_from (text_gv xs) ≡ xs
text_back [] = refl
text_back (x ∷ xs) = ap (λ ys. x ∷ ys) (text_back xs)

abbrev pub texts_gv : List (List ℕ) → Gv
texts_gv [] = gnil
texts_gv (x ∷ xs) = gcons (text_gv x) (texts_gv xs)

abbrev pub texts_from : Gv → List (List ℕ)
texts_from (gcons a b) = text_from a ∷ texts_from b
texts_from _ = []

pub texts_back : (xs : List (List ℕ)) → texts_from (texts_gv xs) ≡ xs
texts_back [] = refl
texts_back (x ∷ xs) = cc (text_back x, texts_back xs)

abbrev pub literal_gv : Literal → Gv
literal_gv x = gcons (text_gv x.body) (text_gv x.flags)

abbrev pub literal_from : Gv → Literal
literal_from (gcons a b) = record { body = text_from a; flags = text_from b }
literal_from _ = record { body = []; flags = [] }

pub literal_back : (x : Literal) → literal_from (literal_gv x) ≡ x
literal_back x = λ i. record { body = text_back x.body i; flags = text_back x.flags i }

abbrev pub bound_gv : Bound → Gv
bound_gv bound.Unbound = gcons (gnum 0) (gcons gnil gnil)
bound_gv (bound.Slot up slot) = gcons (gnum 1) (gcons (gnum up) (gnum slot))
bound_gv (bound.Own up) = gcons (gnum 2) (gcons (gnum up) gnil)
bound_gv bound.Global = gcons (gnum 3) (gcons gnil gnil)

abbrev pub bound_by : ℕ → ℕ → ℕ → Bound
bound_by zero up slot = bound.Unbound
bound_by (suc zero) up slot = bound.Slot up slot
bound_by (suc (suc zero)) up slot = bound.Own up
bound_by _ up slot = bound.Global

abbrev pub bound_from : Gv → Bound
bound_from (gcons t (gcons a b)) = bound_by (num t) (num a) (num b)
bound_from _ = bound.Unbound

pub bound_back : (b : Bound) → bound_from (bound_gv b) ≡ b
bound_back bound.Unbound = refl
bound_back (bound.Slot up slot) = refl
bound_back (bound.Own up) = refl
bound_back bound.Global = refl

abbrev pub bound_name_gv : BoundName → Gv
bound_name_gv x = gcons (text_gv x.name) (bound_gv x.bound)

abbrev pub bound_name_from : Gv → BoundName
bound_name_from (gcons a b) = record { name = text_from a; bound = bound_from b }
bound_name_from _ = record { name = []; bound = bound.Unbound }

pub bound_name_back : (x : BoundName) → bound_name_from (bound_name_gv x) ≡ x
bound_name_back x = λ i. record { name = text_back x.name i; bound = bound_back x.bound i }

abbrev pub bound_names_gv : List BoundName → Gv
bound_names_gv [] = gnil
bound_names_gv (x ∷ xs) = gcons (bound_name_gv x) (bound_names_gv xs)

abbrev pub bound_names_from : Gv → List BoundName
bound_names_from (gcons a b) = bound_name_from a ∷ bound_names_from b
bound_names_from _ = []

pub bound_names_back : (xs : List BoundName) → bound_names_from (bound_names_gv xs) ≡ xs
bound_names_back [] = refl
bound_names_back (x ∷ xs) = cc (bound_name_back x, bound_names_back xs)

abbrev pub optional_name_gv : Option BoundName → Gv
optional_name_gv None = gnil
optional_name_gv (Some x) = gcons (bound_name_gv x) gnil

abbrev pub optional_name_from : Gv → Option BoundName
optional_name_from (gcons a b) = Some (bound_name_from a)
optional_name_from _ = None

pub optional_name_back : (o : Option BoundName) → optional_name_from (optional_name_gv o) ≡ o
optional_name_back None = refl
optional_name_back (Some x) = cc (bound_name_back x)

-- the choice at a tag
abbrev pub pick : {A : Type 0} → ℕ → List A → A → A
pick n [] d = d
pick zero (x ∷ xs) d = x
pick (suc n) (x ∷ xs) d = pick n xs d
"""


def enum_code(enum, module):
    name, all_of_it = snake(enum), variants(enum, module)
    lines = [f"abbrev pub {name}_gv : {enum} → Gv"]
    lines += [f"{name}_gv {name}.{variant} = gnum {k}" for k, variant in enumerate(all_of_it)]
    choices = " ∷ ".join(f"{name}.{variant}" for variant in all_of_it)
    lines += ["", f"abbrev pub {name}_from : Gv → {enum}"]
    lines += [f"{name}_from g = pick (num g) ({choices} ∷ []) {name}.{all_of_it[0]}"]
    lines += ["", f"pub {name}_back : (x : {enum}) → {name}_from ({name}_gv x) ≡ x"]
    lines += [f"{name}_back {name}.{variant} = refl" for variant in all_of_it]
    return "\n".join(lines) + "\n"


def code_of(kind):
    """The names of the code of a part, of the way back and of its proof; a number is its own."""
    if kind == "ℕ":
        return "gnum", "num", None
    name = LEAVES.get(kind) or short(kind)
    return name + "_gv", name + "_from", name + "_back"


def default(tree, types):
    """A tree to give back where there is none: the first constructor without trees in it."""
    for constructor, parts in types[tree]:
        if not any(part in types for part in parts):
            args = " ".join(f"({code_of(part)[1]} gnil)" for part in parts)
            return f"({constructor} {args})" if parts else constructor
    constructor, parts = types[tree][0]
    args = " ".join(default(part, types) if part in types else f"({code_of(part)[1]} gnil)" for part in parts)
    return f"({constructor} {args})"


def row(items):
    """A list of codes as one."""
    out = "gnil"
    for item in reversed(items):
        out = f"gcons {item} " + (out if out == "gnil" else f"({out})")
    return out


def tree_code(tree, types, width):
    name = code_of(tree)[0]
    out = [f"  pub {name} : {tree} → Gv"]
    for tag, (constructor, parts) in enumerate(types[tree]):
        codes = [f"({code_of(kind)[0]} x{i})" for i, kind in enumerate(parts)] + ["gnil"] * (width - len(parts))
        out.append(f"  {name} {pattern(constructor, parts)} = gcons (gnum {tag}) ({row(codes)})")
    return out + [""]


def tree_back(tree, types, width):
    name, letters = code_of(tree)[1], "abcdefgh"[:width]
    fields = "_"
    for letter in reversed(letters):
        fields = f"gcons {letter} " + (fields if fields == "_" else f"({fields})")
    choices = []
    for constructor, parts in types[tree]:
        args = " ".join(f"({code_of(kind)[1]} {letters[i]})" for i, kind in enumerate(parts))
        choices.append(f"{constructor} {args}" if parts else constructor)
    listed = " ∷ ".join(f"({choice})" if " " in choice else choice for choice in choices)
    out = [f"  pub {name} : Gv → {tree}"]
    head = f"gcons t ({fields})" if width else "gcons t _"
    out.append(f"  {name} ({head}) = pick (num t) ({listed} ∷ []) {default(tree, types)}")
    out.append(f"  {name} _ = {default(tree, types)}")
    return out + [""]


def tree_proof(tree, types):
    gv, back, proof = code_of(tree)
    out = [f"  pub {proof} : (x : {tree}) → {back} ({gv} x) ≡ x"]
    for constructor, parts in types[tree]:
        proofs = [f"{code_of(kind)[2]} x{i}" for i, kind in enumerate(parts) if code_of(kind)[2]]
        body = "cc (" + ", ".join(proofs) + ")" if proofs else "refl"
        out.append(f"  {proof} {pattern(constructor, parts)} = {body}")
    return out + [""]


def write_code(types):
    out = [NOTE + "-- Each tree has a code of its own, by which a proof tells trees apart: the code can be read back."]
    out.append("use Rattle.std.specs.Prelude.{◌≡◌, ℕ, zero, suc, ℤ, pos, negsuc, List, [], ◌∷◌, Option, Some, None, refl}")
    out.append("use Rattle.std.proofs.Common.{sym, ap, ◌∙◌}")
    out.append("use Rattle.std.specs.Coded.{Coded}")
    out.append("use base.Stored.{Gv, gnil, gnum, gcons, num}")
    out.append("use Rattle.js_pattern_reader.specs.Literal.{Literal}")
    out.append("use Rattle.js_tree.specs.declared.place.Place.{Place}")
    out.append("use Rattle.js_tree.specs.declared.bound.Bound.{Bound}")
    out.append("use Rattle.js_tree.specs.declared.bound.Bound.TheVariants as bound")
    out.append("use Rattle.js_tree.specs.declared.bound.BoundName.{BoundName}")
    for enum, module in ENUMS.items():
        out.append(f"use Rattle.js_tree.specs.declared.{module}.{enum}.{{{enum}}}")
        out.append(f"use Rattle.js_tree.specs.declared.{module}.{enum}.TheVariants as {snake(enum)}")
    out.append(imports(types))
    out.append(LEAF_CODES)
    out += [enum_code(enum, module) for enum, module in ENUMS.items()]
    widths = {tree: max(len(parts) for _, parts in types[tree]) for tree in types}
    out.append("abbrev mutual")
    for tree in types:
        out += tree_code(tree, types, widths[tree])
    out.append("abbrev mutual")
    for tree in types:
        out += tree_back(tree, types, widths[tree])
    out.append("mutual")
    for tree in types:
        out += tree_proof(tree, types)
    for tree in ["ExpressionTree", "StatementTree"]:
        gv, back, proof = code_of(tree)
        out.append(f"abbrev pub {short(tree)}_code : Coded {tree}")
        out.append(f"{short(tree)}_code = record {{ code = {gv}; inj = λ x y e. sym ({proof} x) ∙ ap {back} e ∙ {proof} y }}\n")
    return "\n".join(out).rstrip() + "\n"


# The lists of the code whose items are structs: the definition of the list as a tree, the struct and its type of trees.
LISTS = [
    ("properties_of", "Property", "Properties"),
    ("suffixes_of", "Suffix", "Suffixes"),
    ("operands_of", "Operand", "Operands"),
    ("declarations_of", "Declared", "Declarations"),
    ("branches_of", "Branch", "Branches"),
    ("clauses_of", "Clause", "Clauses"),
]

# The enums of the code: the definition of one as a tree, the enum, its type of trees, and the first of its constructors.
# Those of a node stand in the order of its variants; one with a function has two, the second for its number.
ENUM_VIEWS = [
    ("suffix_of", "SuffixNode", "SuffixTree", "a_member"),
    ("start_of", "ForStart", "StartTree", "start_var"),
    ("target_of", "ForTarget", "TargetTree", "target_value"),
    ("expression_of", "ExpressionNode", "ExpressionTree", "Number"),
    ("statement_of", "StatementNode", "StatementTree", "Block"),
]

# The parts of the code that may be missing: the definition, the type of the part, its type of trees with the constructor
# of a missing one, and the term of the part, which lies at `x.value`.
OPTIONS = [
    ("optional_box", "ExpressionTree", "OptionalExpression", "absent", "present x.value"),
    ("optional_statement", "StatementTree", "OptionalStatement", "omitted", "given x.value"),
    ("optional_start", "ForStart", "StartTree", "no_start", "start_of x.value"),
    ("optional_catch", "Catch", "CatchTree", "no_catch", "a_catch x.value.name x.value.body"),
]

# How a part of the code is seen as a part of a tree. One that is not here is seen as it is.
SEEN = {
    "Box<Expression>": "{}.value",
    "Box<Statement>": "{}.value",
    "Option<Expression>": "(optional_of {})",
    "Option<Box<Expression>>": "(optional_box {})",
    "Option<Box<Statement>>": "(optional_statement {})",
    "Option<Box<ForStart>>": "(optional_start {})",
    "Option<Box<Catch>>": "(optional_catch {})",
    "Box<ForTarget>": "(target_of {}.value)",
    "Box<Function>": "(function_of {}.value)",
    "ExpressionList": "(expressions_of {})",
    "ItemList": "(items_of {})",
    "PropertyList": "(properties_of {})",
    "SuffixList": "(suffixes_of {})",
    "OperandList": "(operands_of {})",
    "StatementList": "(statements_of {})",
    "DeclaredList": "(declarations_of {})",
    "BranchList": "(branches_of {})",
    "ClauseList": "(clauses_of {})",
}


def read_code():
    """The structs and enums of expressions and statements: the parts of each as pairs of a name and its types."""
    structs, enums = {}, {}
    for module in ["expression", "statement"]:
        source = re.sub(r" *//.*", "", (SOURCES / f"{module}.rt").read_text())
        for name, body in re.findall(r"pub struct (\w+) \{(.*?)\n\}", source, re.S):
            structs[name] = re.findall(r"pub (\w+): (.*),", body)
        for name, body in re.findall(r"pub enum (\w+) \{(.*?)\n\}", source, re.S):
            rows = re.findall(r"^    (\w+)(?:\((.*)\))?,$", body, re.M)
            enums[name] = [(variant, parts.split(", ") if parts else []) for variant, parts in rows]
    return structs, enums


def seen(kind, term):
    return SEEN.get(kind, "{}").format(term)


def fields_seen(struct, variable, structs):
    """The parts of a struct as parts of a tree; the place and node of one are seen as one tree."""
    if [name for name, _ in structs[struct]] == ["place", "node"]:
        return [f"({snake(struct)}_of {variable}.place {variable}.node)"]
    return [seen(kind, f"{variable}.{name}") for name, kind in structs[struct]]


def list_view(name, struct, tree, types, structs):
    (empty, _), (cons, _) = types[tree]
    parts = " ".join(fields_seen(struct, "x", structs))
    return f"abbrev pub {name} : List {struct} → {tree}\n{name} [] = {empty}\n{name} (x ∷ xs) = {cons} {parts} ({name} xs)\n"


def cases_of(parts, structs, enums):
    """The patterns of the parts of a variant, each beside the parts of the tree. A function is one of two."""
    cases = [([], [])]
    for i, kind in enumerate(parts):
        name = f"x{i}"
        if kind == "FunctionPart":
            ways = [(f"(part.{variant} {name})", [seen(inner, name)]) for variant, [inner] in enums[kind]]
        elif kind in structs and kind not in ("Expression", "Statement"):
            ways = [(name, fields_seen(kind, name, structs))]
        else:
            ways = [(name, [seen(kind, name)])]
        cases = [(patterns + [way], terms + more) for patterns, terms in cases for way, more in ways]
    return cases


def enum_view(name, enum, tree, first, types, structs, enums):
    constructors = [constructor for constructor, _ in types[tree]]
    left = iter(constructors[constructors.index(first):])
    placed = ["p"] if enum.endswith("Node") else []
    lines = [f"abbrev pub {name} : " + ("Place → " if placed else "") + f"{enum} → {tree}"]
    for variant, parts in enums[enum]:
        for patterns, terms in cases_of(parts, structs, enums):
            given = " ".join([f"{snake(enum)}.{variant}"] + patterns)
            given = f"({given})" if patterns else given
            lines.append(" ".join([name] + placed + [given, "=", next(left)] + placed + terms))
    return "\n".join(lines) + "\n"


def option_view(name, part, tree, missing, term):
    return f"abbrev pub {name} : Option (Box {part} Global) → {tree}\n{name} None = {missing}\n{name} (Some x) = {term}\n"


def write_view(types):
    structs, enums = read_code()
    lists = {row[0]: list_view(*row, types, structs) for row in LISTS}
    choices = {row[0]: enum_view(*row, types, structs, enums) for row in ENUM_VIEWS}
    options = {row[0]: option_view(*row) for row in OPTIONS}
    function = f"abbrev pub function_of : FunctionRecord → FunctionTree\nfunction_of x = a_function {' '.join(fields_seen('Function', 'x', structs))}\n"
    whole = [
        f"abbrev pub {name}_view : of_{name}.Inside → {name.capitalize()}Tree\n{name}_view x = {name}_of x.place x.node\n"
        for name in ["expression", "statement"]
    ]
    order = [choices.pop("suffix_of"), *lists.values(), function, options.pop("optional_box"), options.pop("optional_statement")]
    order += [choices.pop("start_of"), choices.pop("target_of"), *options.values(), *choices.values(), *whole]
    text = "\n".join(order).rstrip() + "\n"
    return view_imports(types, text) + "\n" + text


def view_imports(types, text):
    """The imports of View.antt: of the trees, those names alone that it uses."""
    out = [VIEW_NOTE + "-- The tree that an expression or a statement of the code is, without where it lies in memory."]
    out.append("use Rattle.std.specs.Prelude.{List, [], ◌∷◌, Option, Some, None, Box}")
    out.append("use Rattle.std.specs.declared.alloc.Global.{Global}")
    out.append("use Rattle.js_tree.specs.declared.place.Place.{Place}")
    declared = "use Rattle.js_tree.specs.declared"
    for kind in ["Expression", "Statement"]:
        out.append(f"{declared}.{kind.lower()}.{kind}.TheInside as of_{kind.lower()}")
    structs = {"expression": "Property Suffix Operand", "statement": "Declared Branch Clause Catch"}
    enums = {"expression": "ExpressionNode SuffixNode", "statement": "StatementNode ForStart ForTarget"}
    out.append(f"{declared}.expression.Function.{{Function as FunctionRecord}}")
    out.append(f"{declared}.expression.FunctionPart.TheVariants as part")
    for module in structs:
        out += [f"{declared}.{module}.{name}.{{{name}}}" for name in (structs[module] + " " + enums[module]).split()]
        out += [f"{declared}.{module}.{name}.TheVariants as {snake(name)}" for name in enums[module].split()]
    names = [name for tree in types for name in [tree] + [c for c, _ in types[tree]]]
    names += ["optional_of", "expressions_of", "items_of", "statements_of"]
    used = [name for name in names if re.search(rf"(?<![\w.]){name}\b", text)]
    out.append("use Rattle.js_tree.specs.Tree.{" + ", ".join(used) + "}\n")
    return "\n".join(out)


def main():
    types = read_trees((SPECS / "Tree.antt").read_text())
    files = {"Size.antt": write_size(types), "Code.antt": write_code(types), "View.antt": write_view(types)}
    files = {SPECS / name: text for name, text in files.items()}
    files |= {CRATES / name: text for name, text in walks(types, NOTE, imports(types)).items()}
    if sys.argv[1:] == ["--check"]:
        stale = [path for path, text in files.items() if not path.is_file() or path.read_text() != text]
        for path in stale:
            print(f"{path} is not what tools/write_tree.py writes")
        sys.exit(1 if stale else 0)
    for path, text in files.items():
        path.write_text(text)


main()
