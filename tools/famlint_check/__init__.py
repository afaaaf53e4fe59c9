"""What tools/famlint-check is made of. It needs Python 3.9 or later, and of Python nothing but the standard library.

`words` reads the command line, `program` finds famlint and runs it, `findings` reads what it prints, `sources` and `model_places` find the
places, `codes` has the sentences, `baseline` what is known, and the modules `as_..` are the formats. `check` brings them together.
"""
