"""The mutants of tools/strength, each of which must be refused.

`contracts` has those that the prover must refuse; `tests` those that no contract refuses, and a program of tests must;
`across` those whose wrong contract a crate above must refuse. `edits` makes an edit in a copy.
"""
