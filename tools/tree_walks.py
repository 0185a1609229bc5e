"""The walks over trees of scripts in js_binding, js_law_source and js_law_right, from the types of trees: see `walks`.

A walk has an equation for each node, and all but the few that touch names, scopes and functions only go on to the
parts. What is particular to those stands in the tables here; all else follows from the parts of a node.
"""
import re

NAME, FUNCTION, NUMBER = "BoundName", "FunctionTree", "ℕ"
# The nodes in which a function stands whole, each with the one for its number.
BY_NUMBER = {"Function": "Numbered", "Declare": "DeclareNumbered"}
WHOLE = {number: whole for whole, number in BY_NUMBER.items()}
# What is claimed of the function of each of these nodes.
CLAIMS = {"Function": "expression", "Numbered": "numbered", "Declare": "declaration", "DeclareNumbered": "declared"}
# The nodes whose parts stand in a scope of their own.
SCOPES = {"a_catch": "(in_handler scopes x)"}

# The functions of js_binding over a type of trees: the stem of their names, where it isn't the type's; and those that tell
# whether a name is mentioned and which variables and functions are declared, where they aren't named by the stem.
STEMS = {"OptionalExpression": "optional", "OptionalStatement": "otherwise", "CatchTree": "handler"}
MENTIONS = {"ExpressionTree": "mentions", "StatementTree": "mentions_in", "Statements": "mentions_in_body"}
VARIABLES = {"StatementTree": "variables_of", "Statements": "variables_of_all"}
FUNCTIONS = {"StatementTree": "declared_function", "Statements": "functions_of"}
# The types of trees in which no variable is declared.
EXPRESSIONS = {"ExpressionTree", "OptionalExpression", "Expressions", "Items"}
EXPRESSIONS |= {"Properties", "SuffixTree", "Suffixes", "Operands"}

# The variable for a part of each type, and what stands behind it for what the part became.
LETTERS = {
    "Place": "p",
    "ℤ": "n",
    NUMBER: "n",
    "List ℕ": "text",
    "Literal": "literal",
    NAME: "x",
    "UpdateForm": "form",
    "UnaryOp": "op",
    "UpdateOp": "op",
    "BinaryOp": "op",
    "AssignOp": "op",
    "ExpressionTree": "e",
    "OptionalExpression": "o",
    "Expressions": "es",
    "Items": "items",
    "Properties": "ps",
    "SuffixTree": "s",
    "Suffixes": "ss",
    "Operands": "os",
    FUNCTION: "f",
    "StatementTree": "s",
    "OptionalStatement": "o",
    "Statements": "ss",
    "Declarations": "ds",
    "Branches": "bs",
    "StartTree": "a",
    "TargetTree": "t",
    "Clauses": "cs",
    "CatchTree": "c",
}
MARK = "'"


def stem(tree):
    """The stem of the names of functions over a type of trees: `ExpressionTree` as `expression`."""
    return STEMS.get(tree) or re.sub(r"(?<!^)([A-Z])", r"_\1", tree.removesuffix("Tree")).lower()


def fact(tree):
    return "EachIn" + stem(tree).capitalize()


def applied(head, terms):
    return f"({' '.join([head, *terms])})" if terms else head


def use(module, names):
    return f"use Rattle.{module}.{{{', '.join(names)}}}"


class Part:
    """A part of a node: its variable, its type, and the variable for what it became, which for a function is a number."""

    def __init__(self, name, kind, types):
        self.name, self.kind = name, kind
        self.is_tree = kind in types and kind != FUNCTION
        self.is_walked = kind in types or kind == NUMBER
        self.became = LETTERS[NUMBER] if kind == FUNCTION else name


class Node:
    """A constructor, its parts, and the scopes in which they stand."""

    def __init__(self, constructor, kinds, types):
        letters = [LETTERS[kind] for kind in kinds]
        names = [it if letters.count(it) == 1 else f"{it}{letters[: i + 1].count(it)}" for i, it in enumerate(letters)]
        self.constructor = constructor
        self.parts = [Part(name, kind, types) for name, kind in zip(names, kinds)]
        self.walked = [part for part in self.parts if part.is_walked]
        self.scopes = SCOPES.get(constructor, "scopes")
        self.pattern = applied(constructor, names)

    def made(self, bind, mark):
        """The node again, of what its parts became, with its names as `bind` has them; a function stands by its number."""
        terms = [f"({bind} {it.name})" if it.kind == NAME else it.became + mark if it.is_walked else it.name for it in self.parts]
        return applied(BY_NUMBER.get(self.constructor, self.constructor), terms)

    def facts(self):
        """What is claimed in the node, part by part: pairs of the part and the fact."""
        for part in self.parts:
            if part.kind == NAME:
                yield part, f"claims.name {self.scopes} {part.name}"
            if part.kind in (FUNCTION, NUMBER):
                yield part, f"claims.{CLAIMS[self.constructor]} {self.scopes} {part.name}"
            if part.is_tree or part.kind == FUNCTION:
                yield part, f"{fact(part.kind)} claims {self.scopes} {part.name}"


def chain(then, steps, last):
    """One thing after another: each step is a call and the variables for what it gives."""
    for call, variables in reversed(steps):
        last = f"{then} ({call}) (λ {variables}. {last})"
    return last


def block(types, name, signature, equation, function):
    """A mutual block: for each type its signature and an equation for each node; `function` is the text for functions."""
    out = []
    for tree in types:
        lines = [f"  pub {name(tree)} : {signature(tree)}"]
        for constructor, kinds in [] if tree == FUNCTION else types[tree]:
            given, result = equation(tree, Node(constructor, kinds, types))
            lines.append(f"  {name(tree)} {given} = {result}")
        out.append(function if tree == FUNCTION else "\n".join(lines))
    return "\n\n".join(out) + "\n"


# ---- definitions


def unbound_part(part):
    if part.kind == NAME:
        return f"(unbound {part.name})"
    return f"({stem(part.kind)}_unbound {part.name})" if part.is_tree or part.kind == FUNCTION else part.name


def unbound_equation(tree, node):
    return node.pattern, " ".join([node.constructor, *map(unbound_part, node.parts)])


def write_unbound(types, trees):
    function = """  pub function_unbound : FunctionTree → FunctionTree
  function_unbound (a_function own parameters names body) =
      a_function (option_map unbound own) (map unbound parameters) [] (statements_unbound body)"""
    return f"""-- A program without the places of its names and the names of its functions' scopes: each name is as it was read.
use Rattle.std.specs.Prelude.{{List, [], map, option_map}}
use Rattle.js_binding.specs.Source.{{unbound}}
{trees}
abbrev mutual
{block(types, lambda tree: f"{stem(tree)}_unbound", lambda tree: f"{tree} → {tree}", unbound_equation, function)}
abbrev pub unbound_program : Statements × List FunctionTree → Statements × List FunctionTree
unbound_program program = (statements_unbound program.0, map function_unbound program.1)
"""


def numbered_equation(tree, node):
    text = "pure " + node.made("unbound", MARK)
    for part in reversed(node.walked):
        call = "placed hollow" if part.kind == NUMBER else f"{stem(part.kind)}_numbered {part.name}"
        text = f"{call} >>= (λ {part.became}{MARK}. {text})"
    return node.pattern, text


def write_numbered(types, trees):
    function = """  pub function_numbered : FunctionTree → Placing ℕ
  function_numbered (a_function own parameters names body) =
      numbered (λ made. a_function (option_map unbound own) (map unbound parameters) [] made) (statements_numbered body)"""
    return f"""-- A script whose functions stand by number, in the order in which they begin, and whose names are as they were read. The
-- number is that of the code that a function object is made with (ECMA-262 5.1, section 13.2).
use Rattle.std.specs.Prelude.{{ℕ, List, [], map, option_map}}
{trees}use Rattle.js_tree.specs.Tree.{{statements_of}}
use Rattle.js_binding.specs.Source.{{unbound}}
use Rattle.js_binding.specs.Resolved.{{Placing, pure, ◌>>=◌, hollow, placed, numbered}}

unfoldable mutual
{block(types, lambda tree: f"{stem(tree)}_numbered", lambda tree: f"{tree} → Placing {tree}", numbered_equation, function)}
-- the body and the functions of a script
abbrev pub numbered_script : List StatementTree → Statements × List FunctionTree
numbered_script script = statements_numbered (statements_of script) []
"""


def each_equation(tree, node):
    return f"claims scopes {node.pattern}", " × ".join(it for _, it in node.facts()) or "Unit {0}"


def write_each(types, trees):
    function = """  pub EachInFunction : Claims → List Scope → FunctionTree → Type 0
  EachInFunction claims scopes (a_function own parameters names body) =
      EachInStatements claims (in_body (around_function scopes own) parameters body) body"""
    return f"""-- What is claimed of each name and of each function in a tree, among the scopes around it.
use Rattle.std.specs.Prelude.{{ℕ, List}}
use Rattle.js_tree.specs.declared.bound.BoundName.{{BoundName}}
{trees}use Rattle.js_binding.specs.Scopes.{{Scope}}
use Rattle.js_binding.specs.Resolved.{{around_function, in_body, in_handler}}

-- A function expression and a function declaration stand whole in a script, and by their number in a program.
pub record Claims : Type 1 where
  pub name : List Scope → BoundName → Type 0
  pub expression : List Scope → FunctionTree → Type 0
  pub numbered : List Scope → ℕ → Type 0
  pub declaration : List Scope → FunctionTree → Type 0
  pub declared : List Scope → ℕ → Type 0

-- It holds in the bodies of whole functions too. The name of a `catch` and its block stand in its scope (12.14).
abbrev mutual
{block(types, fact, lambda tree: f"Claims → List Scope → {tree} → Type 0", each_equation, function)}"""


# ---- proofs


def named(types, ending):
    """The functions over all types of trees but that of functions, by the ending of their names."""
    return [stem(tree) + ending for tree in types if tree != FUNCTION]


def same_equation(tree, node):
    steps = []
    for part in node.walked:
        call = "same_placed" if part.kind == NUMBER else f"{stem(part.kind)}_same {node.scopes} {part.name}"
        steps.append((call, f"{part.became}{MARK} {part.became}° h{part.became}"))
    pair = f"{node.made(f'bound_in {node.scopes}', MARK)} {node.made('unbound', '°')}"
    return f"scopes {node.pattern}", chain("same_then", steps, f"same_pure {pair} {'cc' if steps else 'refl'}")


def same_signature(tree):
    it, of = LETTERS[tree], stem(tree)
    return f"(scopes : List Scope) ({it} : {tree}) → Same {of}_unbound ({of}_in scopes {it}) ({of}_numbered {it})"


def write_same(types, trees):
    function = """  pub function_same : (scopes : List Scope) (f : FunctionTree) → Same same_number (function_in scopes f) (function_numbered f)
  function_same scopes (a_function own parameters names body) =
      same_function scopes own parameters names body
      (statements_same (in_body (around_function scopes own) parameters body) body)"""
    resolved, numbered = named(types, "_in") + ["function_in"], named(types, "_numbered") + ["function_numbered"]
    return f"""-- Each tree, without the places of its names once it is resolved, is the tree with its functions by number.
use Rattle.std.proofs.Common.{{List, refl}}
{trees}use Rattle.js_binding.specs.Scopes.{{Scope, bound_in}}
use Rattle.js_binding.specs.Source.{{unbound}}
{use("js_binding.specs.Resolved", ["around_function", "in_body", "in_handler", *resolved])}
{use("js_binding.specs.Numbered", numbered)}
{use("js_law_right.specs.Unbound", named(types, "_unbound"))}
use Rattle.js_law_right.proofs.Same.{{Same, same_pure, same_then, same_number, same_placed, same_function}}

mutual
  unfolding {" ".join([*resolved, *numbered])}

{block(types, lambda tree: f"{stem(tree)}_same", same_signature, same_equation, function)}"""


def back_equation(tree, node):
    steps, source = [], [WHOLE.get(node.constructor, node.constructor)]
    for part in node.parts:
        if part.is_walked:
            call = "back_placed" if part.kind == NUMBER else f"{stem(part.kind)}_back {part.name}"
            steps.append((call, part.became + MARK))
            source.append(f"(h{part.became} i)")
        else:
            source.append(f"(unbound {part.name})" if part.kind == NAME else part.name)
    known = " ".join(f"h{part.became}" for part in reversed(node.walked))
    last = f"(λ at {known}. λ i. {' '.join(source)})" if steps else "(λ at. refl)"
    return node.pattern, chain("keeps_then", steps, f"keeps_pure {node.made('unbound', MARK)} {last}")


def back_signature(tree):
    it, of = LETTERS[tree], stem(tree)
    return f"({it} : {tree}) → Back {of}_source ({of}_source none {it}) ({of}_numbered {it})"


def write_back(types, trees):
    function = """  pub function_back : (f : FunctionTree) → Back number_source (function_source none f) (function_numbered f)
  function_back (a_function own parameters names body) = back_function own parameters names body (statements_back body)"""
    sources, numbered = named(types, "_source") + ["function_source"], named(types, "_numbered") + ["function_numbered"]
    return f"""-- Each tree with its functions by number has the source of the tree, once these are back in their places.
use Rattle.std.proofs.Common.{{refl}}
{trees}{use("js_binding.specs.Source", ["unbound", *sources])}
{use("js_binding.specs.Numbered", numbered)}
use Rattle.js_law_binding.proofs.Keeps.{{keeps_pure, keeps_then}}
use Rattle.js_law_source.proofs.Back.{{Back, number_source, back_placed, back_function}}
use Rattle.js_law_source.proofs.ReadScripts.{{none}}

mutual
  unfolding {" ".join([*sources, *numbered])}

{block(types, lambda tree: f"{stem(tree)}_back", back_signature, back_equation, function)}"""


def tells(tree):
    """The functions that tell which names a tree mentions and declares."""
    yield (MENTIONS.get(tree) or f"mentions_in_{stem(tree)}") + " y"
    if tree not in EXPRESSIONS:
        yield VARIABLES.get(tree) or f"variables_of_{stem(tree)}"
    if tree in FUNCTIONS:
        yield FUNCTIONS[tree]


def told_by_parts(tree, node):
    """That a node tells what it told, by each of these functions: from what its parts tell by the function in that place."""
    for i, it in enumerate(tells(tree), 1):
        # the function that a statement declares is told by the statement alone
        known = [f"h{part.name}.{i}" for part in node.parts if part.is_tree and len(list(tells(part.kind))) >= i]
        yield f"cc ({', '.join(known)})" if known and it != "declared_function" else "refl"


def keeps_equation(tree, node):
    facts = list(node.facts())
    given = ["h"] if len(facts) == 1 else [f"h.{i}" for i in range(len(facts))]
    known = {part: place for (part, _), place in zip(facts, given)}
    claimed = {part: place for (part, it), place in zip(facts, given) if it.startswith("claims.")}
    law, steps, right = CLAIMS.get(node.constructor), [], []
    for part in node.parts:
        is_so = f"h{part.became}"
        if part.kind == NAME:
            right.append("refl")
        elif part.kind == NUMBER:
            steps.append((f"{law}_kept {node.scopes}", part))
            right.append(is_so)
        elif part.kind == FUNCTION:
            steps.append((f"function_keeps {node.scopes} {part.name} {known[part]}", part))
            right.append(f"{law}_right setting {node.scopes} {part.name} {part.became}{MARK} {claimed[part]} {is_so}")
        elif part.is_tree:
            steps.append((f"{stem(part.kind)}_keeps y {node.scopes} {part.name} {known[part]}", part))
            right.append(f"{is_so}.0")
    is_right = f"({', '.join(right)})" if len(right) > 1 else (right or ["tt"])[0]
    variables = " ".join(["setting", *(f"h{part.became}" for _, part in reversed(steps))])
    last = f"(λ {variables}. ({', '.join([is_right, *told_by_parts(tree, node)])}))"
    last = f"keeps_pure {node.made(f'bound_in {node.scopes}', MARK)} {last}"
    return f"y scopes {node.pattern} h", chain("keeps_then", [(call, part.became + MARK) for call, part in steps], last)


def keeps_signature(tree):
    it, of = LETTERS[tree], stem(tree)
    stays = [f"({told} ({of}_unbound r) ≡ {told} {it})" for told in tells(tree)]
    return f"""(y : List ℕ) (scopes : List Scope) ({it} : {tree}) → {fact(tree)} anonymous scopes {it}
      → Keeps (λ setting r. {" × ".join([f"{fact(tree)} (right setting) scopes r", *stays])}) ({of}_in scopes {it})"""


def write_keeps(types, trees):
    function = """  pub function_keeps : (scopes : List Scope) (f : FunctionTree) → EachInFunction anonymous scopes f
      → Keeps (λ setting n. setting n ≡ setting_of scopes f) (function_in scopes f)
  function_keeps scopes (a_function own parameters names body) h =
      function_kept scopes own parameters names body
      (statements_keeps arguments_name (in_body (around_function scopes own) parameters body) body h)"""
    resolved = named(types, "_in") + ["function_in"]
    told = sorted({it.split()[0] for tree in types if tree != FUNCTION for it in tells(tree)})
    laws = [f"{law}_kept" for law in ("numbered", "declared")] + [f"{law}_right" for law in ("expression", "declaration")]
    return f"""-- Each tree of a script in which no declared function has a name of its own: once it is resolved it is right, and it
-- mentions and declares the names that it did. y: the name that is mentioned or not.
use Rattle.std.proofs.Common.{{◌≡◌, ℕ, List, refl}}
{trees}{use("js_binding.specs.Names", ["arguments_name", *told])}
use Rattle.js_binding.specs.Scopes.{{Scope, bound_in}}
{use("js_binding.specs.Resolved", ["around_function", "in_body", "in_handler", *resolved])}
{use("js_law_right.specs.EachIn", [fact(tree) for tree in types])}
use Rattle.js_law_right.specs.Anonymous.{{anonymous}}
use Rattle.js_law_right.specs.Right.{{right}}
{use("js_law_right.specs.Unbound", named(types, "_unbound"))}
use Rattle.js_law_right.proofs.Keeps.{{Keeps, keeps_pure, keeps_then}}
{use("js_law_right.proofs.Functions", ["setting_of", *laws, "function_kept"])}

mutual
  unfolding {" ".join(resolved)}

{block(types, lambda tree: f"{stem(tree)}_keeps", keeps_signature, keeps_equation, function)}"""


def walks(types, note, trees):
    """The files that are written: the path below the folder of all crates, and the text."""
    texts = {
        "js_law_right/specs/EachIn.antt": write_each(types, trees),
        "js_binding/specs/Numbered.antt": write_numbered(types, trees),
        "js_law_right/specs/Unbound.antt": write_unbound(types, trees),
        "js_law_right/proofs/KeptTrees.antt": write_keeps(types, trees),
        "js_law_right/proofs/SameTrees.antt": write_same(types, trees),
        "js_law_source/proofs/BackTrees.antt": write_back(types, trees),
    }
    return {name: note + text for name, text in texts.items()}
