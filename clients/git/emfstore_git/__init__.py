"""A store's versions as commits of a git repository, and a git repository's commits as versions of a store.

`python3 -m emfstore_git.store2git` and `python3 -m emfstore_git.git2store` do the one and the other. git itself reads and writes commits, by
`fast-import` and `cat-file`; XMI is read and written by EMF, in one Java process.
"""
