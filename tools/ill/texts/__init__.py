"""The comparisons of tools/texts: of texts with the sources of the repository.

A module compares some texts with what they speak of: `documents`, `tables`, `work`, `states`, `boxes`, `news`, `edits`
and `help`. `sentences` counts the words of each sentence. Those that also write their texts are `words`, `laws`,
`lines`, and `faults` with `program`, from the files `fault-page` and `fault-rows`.
"""
