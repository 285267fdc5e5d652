"""The tests of the repository that are no test functions of a crate: modules of `unittest`.

`python3 -m unittest tests.serve -k retry` runs some of a module, from the top of the repository. `./test --list` says
what there is, `./test -k NAME` runs what has NAME in its name, and `./test` everything. docs/TESTING.md says which test
goes where.
"""
