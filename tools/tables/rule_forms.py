"""The forms of the lemmas on rules, of which five theories have one for each rule."""
from dataclasses import dataclass, field


@dataclass
class Form:
    """What a theory says of each rule, and what a lemma of its kind needs."""
    folder: str
    head: str
    # what a lemma says of NAME, and what the lemmas of all rules say, with a last argument
    says: str
    table: str
    taken: str = ""
    # the predicates of lemmas, with the place of a rule among their arguments
    places: dict = field(default_factory=dict)
    # files with lemmas, and with definitions that they name
    files: list = field(default_factory=list)
    others: list = field(default_factory=list)
    # other lemmas of some symbols; symbols without a lemma, and without a row in the table
    special: dict = field(default_factory=dict)
    without: tuple = ()
    untold: tuple = ()
    # the implicit arguments that lemmas need, each a variable that is found
    hints: dict = field(default_factory=dict)
    # how many of the last parts of what is said choose a lemma, and which one has several forms
    compared: int = 1
    writers: dict = field(default_factory=dict)
    # terms of premises, by predicate; a premise with the lemma that gives it
    premises: dict = field(default_factory=dict)
    given: tuple = ("", "")
    # the words that premises begin with, if not the predicates; names that replace others
    words: tuple = ()
    known: dict = field(default_factory=dict)
    # whether the predicates are of values, and not relations of them
    holds: bool = False
    # the variable of a span, where values keep their spans; what a term takes before its rule
    span: str = ""
    binds: str = ""

    def __post_init__(self):
        self.words = self.words or tuple(self.places)

    def mentions(self, text):
        """Whether a signature may be of one of the predicates."""
        return any(f"{word} " in text.replace("\n", " ") for word in self.words)

    def lemma(self, symbol):
        """The name of a symbol's lemma, and what it says."""
        return self.special.get(symbol, self.says).replace("NAME", symbol).split(" : ", 1)


WAYS = ("optional", "many", "several", "list", "list_or_none")
# a premise of this kind is what is known of a symbol
AS_KNOWN = "λ v xs ys h. h"
REREAD = "wgsl_theory_reread/proofs"
EACH_RULE = f"{REREAD}/EachRule"
# symbols whose rules are not read again by one lemma
NOT_READ = ("ident", "component", "negated_expression", "attribute", "var_template",
            "diagnostic_severity")
ITEM = "NAME_right : Changes true true (written NAME) (edit_write NAME)"

READS = Form(
    folder=EACH_RULE,
    head="What each rule derives is read again",
    says="NAME_reads : Reads (written NAME) (write NAME) (Same NAME)",
    table="rule_reads : (n : Symbol) → IsRead n → Reads (written n) (write n) (Same n)",
    taken=" k",
    places={"Reads": 0},
    files=[f"{EACH_RULE}/*.antt", f"{REREAD}/Rules.antt", f"{REREAD}/Ways.antt"],
    others=[f"{REREAD}/Again.antt"],
    without=NOT_READ,
    untold=NOT_READ,
    hints={f"{way}_reads": ("bare", "kept") for way in WAYS}
          | {"ended_reads": "g", "unended_reads": "g"},
    compared=2,
    writers={"Reads": 0},
    premises={"ReadsWith": AS_KNOWN},
    given=("AttributeReads", "attribute_node_reads"))

EDITS = Form(
    folder="wgsl_theory_templates/proofs/Changes",
    head="What is written from each rule in place of what was read",
    says="NAME_right : {b : Bool} → Changes (closing NAME) b (written NAME) (edit_write NAME)",
    table="rights : (n : Symbol) → IsTurned n → {b : Bool}"
          " → Changes (closing n) b (written n) (edit_write n)",
    taken=" k",
    places={"Changes": 2, "ListChanges": 1},
    files=["wgsl_theory_templates/proofs/Changes/*.antt"],
    others=[f"{REREAD}/Again.antt", f"{EACH_RULE}/*.antt"],
    special={"statement": ITEM, "global_declaration": ITEM},
    without=("component", "expressions"),
    untold=("component", "expressions", "statement", "global_declaration", "unit"),
    hints={"makes_edits": ("writes",), "after_edits": "m", "optional_edits": "eb",
           "ended_edits": "g", "unended_edits": "g", "filled_edits": "g"},
    writers={"Changes": 2, "ListChanges": 1},
    premises={"EditsWith": AS_KNOWN, "FilledWith": AS_KNOWN})

SOUND = Form(
    folder="wgsl_theory_printed/proofs/Sound",
    head="What each rule derives from a text is sound",
    says="NAME_gives : Gives (written NAME) (Sound NAME)",
    table="rules : (n : Symbol) → Gives (written n) (Sound n)",
    places={"GivesBy": 2},
    files=["wgsl_theory_printed/proofs/Sound/*.antt", f"{REREAD}/Gives.antt"],
    others=["wgsl_theory_printed/proofs/Fits/*.antt"],
    words=("Gives", "GivesBy"),
    known={"S": ("name", "Sound")},
    holds=True)

MOVES = Form(
    folder="wgsl_theory_tidy/proofs/Moved",
    head="What each rule derives is derived wherever the tokens are",
    says="NAME_moves : MovesBy (written NAME) (Alike NAME)",
    table="rules : (n : Symbol) → MovesBy (written n) (Alike n)",
    places={"MovesBy": 0},
    files=["wgsl_theory_tidy/proofs/Moved/*.antt"],
    others=[f"{EACH_RULE}/*.antt"],
    hints={f"{way}_moves": ("bare",) for way in (*WAYS, "with_attributes")}
          | {"makes_moves": ("like",)})

RENAMES = Form(
    folder="wgsl_theory_names/proofs/Derived",
    head="What each rule derives of renamed tokens",
    says="NAME_renames : {f : Renaming} → RenamesBy f (written NAME) (Renamed f NAME)",
    table="rules : {f : Renaming} → (n : Symbol) → RenamesBy f (written n) (Renamed f n)",
    places={"RenamesBy": 1},
    files=["wgsl_theory_names/proofs/Derived/*.antt"],
    others=["wgsl_model_names/specs/*.antt"],
    hints={f"{way}_renames": ("change",) for way in (*WAYS, "with_attributes")}
          | {"makes_renames": ("like",)},
    span="s",
    binds=" {f = f}")

FORMS = (READS, EDITS, SOUND, MOVES, RENAMES)
