"""Settings, a change to them, the settings then, and a question."""
REST = "# comment\n[c]\n\tkey = value\n" * 20

CASE = (f"[a]\n\tB = 1 # one\n{REST}".encode(), ["set", "a.b", "2"], f"[a]\n\tB = 2\n{REST}".encode(), ["get", "a.b"])
