"""Sets of files that several tools read. A pattern after `!` leaves files out."""
from node_table import TREES as CRATES

# the tables of nodes and of tokens, and the rules of packed forms with what fills their places
NODES = ("crates/wgsl_model/nodes",)
TOKENS = ("crates/wgsl_model/tokens",)
RULES = ("crates/wgsl_model_packed/rules", "crates/wgsl_model_packed/kinds")
# all definitions of WGSL, the plain trees among them, and what is defined of names
MODEL = ("crates/wgsl_model/specs/*.antt",)
TREES = ("crates/wgsl_model/specs/Trees/*.antt",)
NAMES = ("crates/wgsl_model_names/specs/*.antt",)
# the grammar as it is written, and in the form in which one token decides
GRAMMAR = ("crates/wgsl_model/specs/Grammar/*.antt",)
FACTORED = (*GRAMMAR, "crates/wgsl_model/specs/Tokens/ClassTable.antt",
            "crates/wgsl_theory_grammar/specs/Factored.antt")
# how statements are printed and changed, and which pieces print what is in them
PRINTED = ("crates/wgsl_model/specs/Printed/Statements.antt",
           "crates/wgsl_model/specs/Trees/Statement*.antt")
PIECES = ("crates/wgsl_model/proofs/Filled.antt",
          "crates/wgsl_theory_printed/proofs/TreePieces/PiecesOf*.antt",
          "crates/wgsl_theory_printed/proofs/TreePieces/Printing.antt",
          "crates/wgsl_theory_reread/specs/CanonicalStatements.antt")
# where the library declares nodes and words, and what is defined of these: their plain trees
SOURCES = (*(f"crates/wgsl_tree_{it}/src/*.rt" for it in CRATES), "!*_nodes.rt",
           "crates/wgsl_tree_words/src/*.rt")
VIEWS = ("crates/wgsl_tree_*/specs/View*.antt",)
