"""The command `ref`: what a person asks of fields, over the module paltinoma. bin/ref starts it.

From the words to the answer: `lines` takes what is asked about, `octets` lays a field beside its paper, `why` explains
a refusal, `answers` has a function for each command, `page` makes the HTML, and `command` is the command line.
"""
