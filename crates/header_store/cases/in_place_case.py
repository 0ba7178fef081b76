"""A message, a change to it, the message then, and a question."""
BODY = "body\n" * 100

CASE = (f"A: 1\r\nB:  2\r\n\r\n{BODY}".encode(), ["set", "a", "3"], f"A: 3\r\nB:  2\r\n\r\n{BODY}".encode(), ["get", "a"])
