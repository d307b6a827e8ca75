"""Native runs of a program: flat code becomes C with real threads, and where such a run ends becomes a log. docs/NATIVE.md."""
