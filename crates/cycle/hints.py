# What tools/proofs is told of the cycle: of a member the definitions to open, where its contract does not name the one; of a loop its
# invariant, the call that falls in a round and why. $name is the path of the last call of that name, $loop, $while, $test and $match that of the
# loop, its test, the last test and the last arm. docs/PRODUCTIONS.md has the keys.
like("grammar")
MODULES = MODULES + [
    ("Rattle.cycle.proofs.Depth", [
        "expr_bp-deeper", "stmt-deeper", "type_spec-deeper", "complex_type_spec-deeper", "if_stmt-deeper", "expression_list-deeper",
        "falls-after", "falls-after-peeks"]),
    ("Rattle.grammar.proofs.Spends", [
        "expr_bp-spends", "stmt-spends", "item-spends", "index-spends", "ahead-spends", "op-spends", "op-left", "op-next", "left-list"]),
    ("Rattle.operators.proofs.Tables", ["mode-fair"]),
    ("Rattle.kinds.specs.Sets", ["EXPR-FIRST"]),
]
# the counted calls to spare, then the member's rank, which is read off the code
MEASURE = "l.level.left * 64 + {}"
C = "(counted (table_of l.level.mode) l.level.left)"
D = "(counted (table_of l.d.mode) l.d.left)"


def ran(acts, *answers):
    """That a loop has run rounds of `acts` from its begin to here, each of which answers these variables."""
    then, now = ["tt" if not answers else ", ".join(at + a for a in answers) for at in ("l.initial.", "l.")]
    if len(answers) > 1:
        then, now = f"({then})", f"({now})"
    return f"(length l.room ≡ length l.initial.room) × Ran (tokens l.input) ({acts}) {then} (view l.initial.q l.initial.room) {now} (view l.q l.room)"


EXPR_FALLS = "falls _ _ _ (expr_bp-spends _ _ _ _ _) (left-goes _ _ _ (sym $goes_on.ensures ∙ $while)) $expr_bp.ensures"
LOOK_FALLS = "falls-peeks _ _ _ (spends-nth 0) (left-told _ 0 _ $current.ensures (λ z. omega (arith, {}))) $current.ensures"


def loop(acts, answers, call, falls, **more):
    return dict(inv=ran(acts, *answers), measure="acts.left l.q", call=call, falls=falls) | more


HINTS = {
    "expr_bp": loop(f"E.expr_bp_round {D} (later {D}) (table_of l.d.mode) l.prefer l.bp", ["cm"], "current_op",
                    "falls-peeks _ _ _ (op-spends _) (op-left _ (mode-fair _) _ $current_op.ensures (omega (arith, $test, c.requires.le_bp))) $current_op.ensures",
                    counted="expr_bp-deeper _ _ _ _ _ _ _", open=["E.expr_bp", "E.expr_bp_round"],
                    claims={"expr_bp-p-requires": "omega (arith, op-next _ (mode-fair _) _ $current_op.ensures, $test, c.requires.le_bp)"}),
    "spec": loop(f"E.array_type_spec_round {D}", [], "expr_bp",
                      "falls _ _ _ (expr_bp-spends _ _ _ _ _) (omega (arith, left-asked $expect.result.0 (sym $stopped.ensures ∙ $test), spent-does _ _ _ $expect.ensures, spent-does _ _ _ $expr_bp.ensures)) $expr_bp.ensures",
                      counted="type_spec-deeper _ _ _ _", open=["E.type_spec", "E.array_type_spec", "E.array_type_spec_round"], after=["complete"]),
    "cplx": dict(counted="complex_type_spec-deeper _ _ _ _", open=["E.complex_type_spec"]),
    "stmt": dict(counted="stmt-deeper _ _ _ _", open=["E.stmt", "E.let_stmt", "E.no_item"]),
    "ifs": dict(counted="if_stmt-deeper _ _ _ _ _", open=["I.if_stmt"]),
    "els": dict(counted="expression_list-deeper _ _ _ _", open=["P.expression_list"]),
    "post": loop(f"E.postfix_expr_round {C} (later {C})", ["cm", "blocky", "calls"], "current", LOOK_FALLS.format("$test"),
                 open=["E.postfix_expr_round"], answer="($loop.cm, $loop.blocky, $loop.calls)"),
    "call": dict(open=["P.arg_list_gate_call_qubits"]),
    "idx": dict(open=["E.index_expr"]),
    "ids": loop(f"E.indexed_identifier_round {C}", [], "subs",
                "falls _ _ _ (index-spends _) (left-sees _ _ L-BRACK (λ z. omega arith) (sym $at.ensures ∙ $while)) $subs.ensures",
                open=["E.indexed_identifier_round"], after=["complete"]),
    "args": loop(f"G.delimited_round R-PAREN COMMA EXPR-FIRST (E.expr {C})", [], "expr_bp", EXPR_FALLS,
                 open=["G.delimited", "G.delimited_round"], after=["args_end"]),
    "list": loop(f"P.param_list_openqasm_round {C} l.shape", ["n"], "param_ahead",
                 "falls-after-peeks _ _ _ _ ahead-spends (left-list _ _ $shape_of.result (sym $list_goes.ensures ∙ $while)) (spent-steps _ _ $start.ensures) $param_ahead.ensures",
                 inv=ran(f"P.param_list_openqasm_round {C} l.shape", "n") + " × (l.n + acts.left l.q ≤ 81938195)",
                 holds="omega (arith, most-left $list_open.result.0)", again="omega (arith, $less, $loop.invariant.2)",
                 open=["P.param_list_openqasm_round"], after=["list_end"]),
    "par": dict(open=["P.param_typed", "E.expr_or_range_expr"], flat=["match"], plain=["returns-in-Typed"]),
    "atom": dict(open=["A.atom_of", "one_of"]),
    "gate": dict(open=["P.arg_list_gate_call_qubits"]),
    "mods": loop(f"A.modified_gate_call_expr_round {C}", [], "current", LOOK_FALLS.format("$match"),
                 open=["A.modified_gate_call_expr_round"], after=["at", "gph", "gate"], state="(view $current.result.0 $loop.room)"),
    "tup": loop(f"A.tuple_expr_round {C}", ["saw", "comma"], "expr_bp", EXPR_FALLS,
                open=["A.tuple_expr_round"], after=["tuple_end"]),
    "arr": loop(f"A.array_expr_round {C}", ["first", "semi"], "expr_bp", EXPR_FALLS,
                open=["A.array_expr_round"], after=["array_end"], answer="($loop.first, $loop.semi)"),
    "sts": loop(f"E.expr_block_contents_round {C}", [], "stmt",
                "falls _ _ _ (stmt-spends _ _) (left-goes _ _ _ (sym $goes_on.ensures ∙ $while)) $stmt.ensures",
                open=["E.expr_block_contents_round"], last=True),
    "sig": dict(open=["G.opt_ret_type"], flat=["whole"]),
    "sw": loop(f"I.switch_case_stmt_round {C}", [], "bump",
               "falls-after _ _ _ _ (spends-bump _) (left-sees _ _ CASE-KW (λ z. omega arith) (sym $at.ensures ∙ $while)) (spent-steps _ _ $start.ensures) $bump.ensures",
               open=["I.switch_case_stmt_round"], after=["eat"]),
    "gdef": dict(open=["P.param_list_gate_params", "P.param_list_gate_qubits"]),
    "dcal": dict(open=["P.param_list_defcal_params", "P.param_list_defcal_qubits"]),
    "def": dict(open=["P.param_list_def_params"]),
    "opt": dict(open=["I.qubit_declaration_stmt", "E.qubit_type_spec", "I.while_stmt", "I.cal"], flat=["key"]),
    "more": dict(open=["I.reset_stmt", "I.barrier", "I.alias_stmt", "I.delay_stmt", "P.arg_list_gate_call_qubits"], flat=["key"]),
    # entry.rt
    "item_at": dict(open=["I.after_item", "I.unmatched", "one_of"]),
}
