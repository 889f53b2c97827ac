"""What tools/sheet rests on: the words of nodes, sheets read, written and converted, texts, `simplify`, pictures and fixes."""
