"""What the scripts of tools/ share. Nothing here is taken from the program that they test, but for its own help.

`harness` has folders, runs, verdicts and stops; `der` the messages in the short form; `records` the record of a desk;
`model` the sides of a loan, by the tables of docs/PROTOCOL.md; `morning` the work with a loan on a day, by these
tables; `tidings` what came to a desk, in the words of the help; `notes` the notes of staff on loans; `counting` the
figures of a span of days; `screen` what a screen shows of a text. `repository` has the
files and the crates that scripts read. `command_line` reads the help in `help.jsonl`, which `make words` takes from the
program.

The others are parts of one script. `texts` compares texts with sources for tools/texts, and `strength` tries wrong
bodies for tools/strength. `desks` has the parts of tools/desks; `pages`, `slips`, `objects`, `damaged` and `manual` are
parts of tools/check-program. The nights of tools/crash are `nights`, and `bodies` has the mutants that tools/exchange
tries. `mail_server` has the servers of tools/mail-server. `browsing` has the parts of tools/browser, `driving` the
browser that it drives, and `serving` its web servers. `month` is its month, and `libraries` are those whose staff it
simulates.
"""
