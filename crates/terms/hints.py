# What tools/proofs is told here is what it is told of the grammar.
like("grammar")
