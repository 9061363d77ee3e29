# An empty tape prints nothing.
