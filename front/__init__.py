"""The front end `jl`: files, formats, coverage and explanations beside the program jlint, which is run for each file.

It is tested and not proved. What it reports of a run is what the program answered; what it adds (sentences, source
lines, places of an end, originals of a transpiled script) is its own."""

VERSION = "1.0"
