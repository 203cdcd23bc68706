%* a comment
a.
