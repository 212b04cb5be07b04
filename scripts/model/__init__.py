"""A model of holddesk replay: what is replied to each message, from the files, the options and the lines alone.

Written apart from the program and its definitions, by the rules in words, as docs/desk-rules.md, docs/protocol.md,
docs/catalogue.md, docs/patrons.md and docs/opening.md tell them. It is naive on purpose. A desk is two dictionaries, a
journal is a list, and a cancellation is decided by running all survivors again without its target, from the opening
desk. All texts are bytes. It knows nothing of a want of memory, and bounds no input.

In the order of reading: dates; lines; files; desk, openings, commands, turns; requests, replies, kiosks; sessions,
replay. scripts/play/model_rows.py plays the stored rows with it, scripts/play/at_random.py compares it with a program.
"""
