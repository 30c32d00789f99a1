"""What `tests/fuzz.py` is made of: the corpus, mutations, models of what the program may do, and the kinds of cases."""
