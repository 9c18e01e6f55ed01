"""How principals come to more than they have, step by step."""
